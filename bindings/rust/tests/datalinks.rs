//! Tests data links: a session over a channel without loss, refusals, and the saved form.
use std::error::Error;
use um::{Channel, DataLink, Invalid, NotSaved, Notice, Reason, Refused, Role, Sapi, State};

#[test]
fn session() -> Result<(), Box<dyn Error>> {
    let mut mobile = DataLink::new(Role::Mobile, Channel::Sdcch, 4, 6)?;
    let mut network = DataLink::new(Role::Network, Channel::Sdcch, 4, 6)?;
    assert_eq!((mobile.role(), network.channel(), mobile.state(Sapi::Signalling)), (Role::Mobile, Channel::Sdcch, State::Idle));
    assert_eq!(DataLink::new(Role::Mobile, Channel::Sdcch, 0, 6), Err(Invalid::T200));
    assert_eq!(mobile.send(Sapi::Signalling, &[1]), Err(Refused::NotOpen));
    assert_eq!(network.open(&[1]), Err(Refused::NoCall));
    assert_eq!(mobile.take(&[0; 23]), Err(Refused::NoFrame));
    mobile.open(&[5, 36])?;
    let mut said = Vec::new();
    for slot in 0..40 {
        let (up, down) = (mobile.next([0, 0]), network.next([0, 0]));
        for (name, link, sent) in [("network", &mut network, up), ("mobile", &mut mobile, down)] {
            for (sapi, notice) in link.take(&sent.block)?.notices() {
                said.push(format!("{name} {} {}", u8::from(sapi), notice.word()));
                if let (Notice::Closed(reason), 0) = (notice, slot) {
                    panic!("closed at once: {reason:?}");
                }
            }
        }
        match slot {
            5 => mobile.send(Sapi::Signalling, &[7; 60])?,
            12 => mobile.close(Sapi::Signalling)?,
            _ => {}
        }
    }
    let wanted = ["network 0 opened", "mobile 0 opened", "network 0 got", "mobile 0 acked", "network 0 closed", "mobile 0 closed"];
    assert_eq!(said, wanted);
    assert_eq!(mobile.state(Sapi::Signalling), State::Closed);
    let sent = mobile.next([0, 0]);
    assert!(sent.is_free && sent.report.notices().len() == 0);
    let unit = network.unit(Sapi::ShortMessages, &[9], [0, 0])?;
    assert_eq!(network.unit(Sapi::ShortMessages, &[9; 21], [0, 0]), Err(Refused::TooLong));
    mobile.close_local(Sapi::Signalling);
    assert_eq!(mobile.state(Sapi::Signalling), State::Idle);
    assert_eq!(mobile.take(&unit)?.notices().len(), 0); // SAPI 0 is not established
    Ok(())
}

/// Some slots, in which the network's blocks may be lost; what each side reports.
fn told(links: &mut [DataLink; 2], air: &mut [Option<[u8; 23]>; 2], count: usize, lost: bool) -> Result<[String; 2], Refused> {
    let mut said = [Vec::new(), Vec::new()];
    let word = |notice: Notice<'_>| match notice {
        Notice::Got(message) => format!("got {}", String::from_utf8_lossy(message)),
        other => other.word().to_string(),
    };
    for _ in 0..count {
        let arrived = *air;
        for who in 0..2 {
            if let Some(block) = arrived[1 - who] {
                said[who].extend(links[who].take(&block)?.notices().map(|(_, notice)| word(notice)));
            }
        }
        for who in 0..2 {
            let sent = links[who].next([0, 0]);
            said[who].extend(sent.report.notices().map(|(_, notice)| word(notice)));
            air[who] = if lost && who == 1 { None } else { Some(sent.block) };
        }
    }
    said.iter_mut().for_each(|words| words.sort());
    Ok([said[0].join(", "), said[1].join(", ")])
}

/// A link that is open at the other side is opened again: a new opening at both sides.
#[test]
fn opened_again() -> Result<(), Box<dyn Error>> {
    let new = |role| DataLink::new(role, Channel::Sacch, 4, 6);
    let (mut links, mut air) = ([new(Role::Mobile)?, new(Role::Network)?], [None; 2]);
    links[0].main(true);
    links[0].open_bare()?;
    assert_eq!(told(&mut links, &mut air, 4, false)?, ["opened", "opened"]);
    links[0].send(Sapi::ShortMessages, b"A")?;
    assert_eq!(told(&mut links, &mut air, 40, true)?, ["closed", "got A"]);
    links[0].open_bare()?;
    assert_eq!(told(&mut links, &mut air, 3, false)?, ["opened", "opened"]);
    links[0].send(Sapi::ShortMessages, b"B")?;
    links[1].send(Sapi::ShortMessages, b"C")?;
    assert_eq!(told(&mut links, &mut air, 10, false)?, ["acked, got C", "acked, got B"]);

    let new = |role| DataLink::new(role, Channel::Sdcch, 2, 4);
    let (mut links, mut air) = ([new(Role::Mobile)?, new(Role::Network)?], [None; 2]);
    links[0].open(b"id")?;
    assert_eq!(told(&mut links, &mut air, 4, false)?, ["opened", "opened"]);
    links[0].send(Sapi::Signalling, b"A")?;
    assert_eq!(told(&mut links, &mut air, 4, false)?, ["acked", "got A"]);
    links[0].close_local(Sapi::Signalling);
    links[0].open(b"id")?;
    assert_eq!(told(&mut links, &mut air, 4, false)?, ["opened", "opened"]);
    links[0].send(Sapi::Signalling, b"B")?;
    links[1].send(Sapi::Signalling, b"C")?;
    assert_eq!(told(&mut links, &mut air, 6, false)?, ["acked, got C", "acked, got B"]);
    Ok(())
}

/// The network releases SAPI 3 in the slot in which the mobile opens it again: a DM in the next slot refuses each.
#[test]
fn collision() -> Result<(), Box<dyn Error>> {
    let new = |role| DataLink::new(role, Channel::Sacch, 4, 6);
    let (mut links, mut air) = ([new(Role::Mobile)?, new(Role::Network)?], [None; 2]);
    links[0].main(true);
    links[0].open_bare()?;
    assert_eq!(told(&mut links, &mut air, 4, false)?, ["opened", "opened"]);
    links[0].open_bare()?;
    links[1].close(Sapi::ShortMessages)?;
    assert_eq!(told(&mut links, &mut air, 2, false)?, ["", ""]);
    assert_eq!(air.map(|block| block.map(|octets| octets[2..5].to_vec())), [Some(vec![15, 31, 1]), Some(vec![13, 31, 1])]);
    assert_eq!(told(&mut links, &mut air, 1, false)?, ["closed", "closed"]);
    Ok(())
}

/// After `Closed` the answer to the other side's release waits for its slot; a SABM and its answer, and a release, do too.
#[test]
fn idle() -> Result<(), Box<dyn Error>> {
    let mut mobile = DataLink::new(Role::Mobile, Channel::Sdcch, 4, 6)?;
    let mut network = DataLink::new(Role::Network, Channel::Sdcch, 4, 6)?;
    assert!(mobile.is_idle() && network.is_idle());
    mobile.open(&[1])?;
    let report = network.take(&mobile.next([0, 0]).block)?;
    assert_eq!(format!("{report:?}"), "[(Signalling, Opened([1]))]");
    assert!(!mobile.is_idle() && !network.is_idle());
    let sent = network.next([0, 0]);
    assert!(format!("{sent:?}").ends_with("is_free: false, report: [] }"));
    mobile.take(&sent.block)?;
    assert!(mobile.is_idle() && network.is_idle());
    mobile.close(Sapi::Signalling)?;
    let report = network.take(&mobile.next([0, 0]).block)?;
    assert_eq!(report.notices().next(), Some((Sapi::Signalling, Notice::Closed(Reason::Released))));
    assert!(!mobile.is_idle() && !network.is_idle());
    assert_eq!(format!("{network:?}"), "DataLink { role: Network, channel: Sdcch, states: (Closed, Idle) }");
    mobile.take(&network.next([0, 0]).block)?;
    assert!(mobile.is_idle() && network.is_idle());
    Ok(())
}

#[test]
fn given_up_and_saved() -> Result<(), Box<dyn Error>> {
    let mut mobile = DataLink::new(Role::Mobile, Channel::Sacch, 4, 6)?;
    mobile.main(true);
    mobile.open(&[5])?;
    let saved = mobile.to_bytes();
    assert_eq!((saved.len(), &saved[..4], &saved[5222..]), (5224, &b"umL2"[..], &[0, 1][..]));
    assert_eq!((saved[4 + 2581], saved[4 + 2581 + 28 + 2581]), (4, 6)); // T200
    let mut older = saved[..5222].to_vec();
    older[3] = b'1';
    assert_eq!(DataLink::from_bytes(&older), Err(NotSaved::Head { found: *b"umL1", expected: b"umL2" }));
    assert_eq!(DataLink::from_bytes(&saved)?, mobile);
    let mut wrong = saved;
    wrong[4 + 2581] = 0;
    assert_eq!(DataLink::from_bytes(&wrong), Err(NotSaved::NoEnd));
    // nobody answers: the SABM goes out once and five times more (N200), then the link is given up
    let mut sabms = 0;
    for _ in 0..40 {
        let sent = mobile.next([0x11, 0x22]);
        assert_eq!(sent.block[..2], [0x11, 0x22]);
        sabms += u32::from(!sent.is_free);
        for notice in sent.report.notices() {
            assert_eq!((notice, sabms), ((Sapi::Signalling, Notice::Closed(Reason::Failed)), 6));
            return Ok(());
        }
    }
    panic!("the link is not given up");
}
