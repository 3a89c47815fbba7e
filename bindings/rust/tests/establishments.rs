//! Scenes of an assignment, a handover and a return, by hand: what each side reports, and the octets of the frames that open a link, from
//! 3GPP TS 44.006. The mobile's command and the network's response have C/R = 0.
use std::error::Error;
use um::{Channel, DataLink, Establishment, Fault, Invalid, LastAnswer, Notice, Refused, Role, Sapi, State};

const ZERO: Sapi = Sapi::Signalling;
type Tried = Result<(), Box<dyn Error>>;

fn pair(kind: Establishment, channel: Channel) -> Result<[DataLink; 2], Invalid> {
    let new = |role| DataLink::new_for(role, channel, kind, 4, 6);
    Ok([new(Role::Mobile)?, new(Role::Network)?])
}

fn normal() -> Result<[DataLink; 2], Invalid> {
    pair(Establishment::Normal, Channel::Sdcch)
}

/// What is on its way between two data links.
#[derive(Default)]
struct Path([Option<[u8; 23]>; 2]);

impl Path {
    /// What each side reports of SAPI 0 in some slots, in the order of the alphabet. A side in `lost` is not heard.
    fn run(&mut self, links: &mut [DataLink; 2], slots: usize, lost: &[usize]) -> Result<[String; 2], Refused> {
        let mut said = [Vec::new(), Vec::new()];
        let word = |(sapi, notice): (Sapi, Notice<'_>)| {
            assert_eq!(sapi, ZERO);
            match notice {
                Notice::Got(message) => String::from_utf8_lossy(message).into_owned(),
                other => other.word().to_string(),
            }
        };
        for _ in 0..slots {
            let arrived = std::mem::take(&mut self.0);
            for who in 0..2 {
                if let Some(block) = arrived[1 - who] {
                    said[who].extend(links[who].take(&block)?.notices().map(word));
                }
                let sent = links[who].next([0, 0]);
                said[who].extend(sent.report.notices().map(word));
                self.0[who] = if lost.contains(&who) { None } else { Some(sent.block) };
            }
        }
        said.iter_mut().for_each(|words| words.sort());
        Ok([said[0].join(" "), said[1].join(" ")])
    }
}

fn texts(link: &DataLink) -> Vec<String> {
    link.unacked(ZERO).iter().map(|message| String::from_utf8_lossy(message).into_owned()).collect()
}

#[test]
fn an_assignment_by_either_side() -> Tried {
    for (channel, at) in [(Channel::Sdcch, 0), (Channel::Sacch, 2)] {
        for who in 0..2 {
            let mut links = pair(Establishment::Normal, channel)?;
            assert_eq!((links[0].establishment(), links[1].establishment().word()), (Establishment::Normal, "normal"));
            links[who].establish(ZERO)?;
            assert_eq!(links[who].state(ZERO), State::Opening);
            let asked = links[who].next([0, 0]).block;
            assert_eq!(asked[at..at + 3], [if who == 0 { 0x01 } else { 0x03 }, 0x3f, 0x01]);
            let report = links[1 - who].take(&asked)?;
            assert_eq!(report.notices().collect::<Vec<_>>(), [(ZERO, Notice::Opened(&[]))]);
            let answered = links[1 - who].next([0, 0]).block;
            assert_eq!(answered[at..at + 3], [if who == 0 { 0x01 } else { 0x03 }, 0x73, 0x01]);
            let report = links[who].take(&answered)?;
            assert_eq!(report.notices().collect::<Vec<_>>(), [(ZERO, Notice::Opened(&[]))]);
            links[0].send(ZERO, b"complete")?;
            links[1].send(ZERO, b"alerting")?;
            assert_eq!(Path::default().run(&mut links, 6, &[])?, ["acked alerting", "acked complete"]);
        }
    }
    Ok(())
}

/// Each answers the other's SABM, and each reports one opening.
#[test]
fn both_open() -> Tried {
    let (mut links, mut path) = (normal()?, Path::default());
    links[0].establish(ZERO)?;
    links[1].establish(ZERO)?;
    assert_eq!(path.run(&mut links, 6, &[])?, ["opened", "opened"]);
    links[0].send(ZERO, b"M")?;
    links[1].send(ZERO, b"N")?;
    assert_eq!(path.run(&mut links, 6, &[])?, ["N acked", "M acked"]);
    Ok(())
}

/// The mobile comes back to a channel that it opened by contention, where the network's link is still open; the second time at once.
#[test]
fn a_return() -> Tried {
    for sends in [true, false] {
        let (mut links, mut path) = (pair(Establishment::Contention, Channel::Sdcch)?, Path::default());
        links[0].open(b"id")?;
        assert_eq!(path.run(&mut links, 4, &[])?, ["opened", "opened"]);
        if sends {
            links[1].send(ZERO, b"command")?;
            assert_eq!(path.run(&mut links, 4, &[])?, ["command", "acked"]);
        }
        assert_eq!(links[1].establishment(), Establishment::Contention);
        links[0].establish(ZERO)?;
        assert_eq!(path.run(&mut links, 4, &[])?, ["opened", "opened"]);
        assert_eq!((links[0].establishment(), links[1].establishment()), (Establishment::Normal, Establishment::Normal));
        links[0].send(ZERO, b"failure")?;
        assert_eq!(path.run(&mut links, 4, &[])?, ["acked", "failure"]);
        assert_eq!(links[0].open(b"id"), Err(Refused::NoCall));
    }
    Ok(())
}

#[test]
fn an_open_link_is_opened_again() -> Tried {
    for who in 0..2 {
        let (mut links, mut path) = (normal()?, Path::default());
        links[0].establish(ZERO)?;
        path.run(&mut links, 4, &[])?;
        links[0].send(ZERO, b"A")?;
        links[1].send(ZERO, b"B")?;
        path.run(&mut links, 6, &[])?;
        links[who].establish(ZERO)?;
        assert_eq!(path.run(&mut links, 4, &[])?, ["opened", "opened"]);
        links[who].send(ZERO, b"C")?;
        let told = path.run(&mut links, 6, &[])?;
        assert_eq!((told[who].as_str(), told[1 - who].as_str()), ("acked", "C"));
    }
    Ok(())
}

/// A handover: what is not acknowledged is sent again over the new channel, and each message arrives once.
#[test]
fn a_handover() -> Tried {
    let (mut links, mut old) = (normal()?, Path::default());
    links[0].establish(ZERO)?;
    old.run(&mut links, 4, &[])?;
    links[0].send(ZERO, b"A")?;
    assert_eq!(texts(&links[0]), ["A"]);
    assert_eq!(format!("{:?}", links[0].unacked(ZERO)), "[[65]]");
    assert_eq!(old.run(&mut links, 4, &[])?, ["acked", "A"]);
    assert_eq!((links[0].unacked(ZERO).iter().len(), links[0].unacked(Sapi::ShortMessages).iter().len()), (0, 0));
    let long = "B".repeat(251);
    links[0].send(ZERO, long.as_bytes())?;
    links[0].send(ZERO, b"C")?;
    assert_eq!(old.run(&mut links, 400, &[0, 1])?, ["closed", ""]);
    assert_eq!(texts(&links[0]), [long.as_str(), "C"]);
    let restored = DataLink::from_bytes(&links[0].to_bytes())?;
    assert_eq!((texts(&restored), restored.establishment()), (texts(&links[0]), Establishment::Normal));
    let (mut fresh, mut new) = (normal()?, Path::default());
    fresh[0].establish(ZERO)?;
    assert_eq!(new.run(&mut fresh, 4, &[])?, ["opened", "opened"]);
    for message in links[0].unacked(ZERO).iter() {
        fresh[0].send(ZERO, message)?;
    }
    assert_eq!(new.run(&mut fresh, 100, &[])?, ["acked acked".to_string(), format!("{long} C")]);
    links[0].close_local(ZERO);
    assert_eq!((texts(&fresh[0]).len(), texts(&links[0]).len()), (0, 0));
    Ok(())
}

/// Only the acknowledgement is lost: the first message that is sent again was received before.
#[test]
fn one_comes_twice() -> Tried {
    let (mut links, mut path) = (normal()?, Path::default());
    links[0].establish(ZERO)?;
    path.run(&mut links, 4, &[])?;
    links[0].send(ZERO, b"A")?;
    links[0].send(ZERO, b"B")?;
    assert_eq!(path.run(&mut links, 400, &[1])?, ["closed", "A"]);
    let waiting = links[0].unacked(ZERO);
    links[0].establish(ZERO)?;
    assert_eq!((waiting.iter().collect::<Vec<_>>(), texts(&links[0]).len()), (vec![&b"A"[..], b"B"], 0));
    assert_eq!(path.run(&mut links, 4, &[])?, ["opened", "opened"]);
    for message in waiting.iter() {
        links[0].send(ZERO, message)?;
    }
    assert_eq!(path.run(&mut links, 20, &[])?, ["acked acked", "A B"]);
    Ok(())
}

/// An RR with N(R) = 1 that is lost and said again.
#[test]
fn an_answer_is_said_twice() -> Tried {
    let (mut links, mut path, mut last) = (normal()?, Path::default(), LastAnswer::default());
    links[0].establish(ZERO)?;
    path.run(&mut links, 4, &[])?;
    links[1].send(ZERO, b"page")?;
    let page = links[1].next([0, 0]).block;
    let _ = links[0].take(&page)?;
    let sent = [(); 3].map(|()| last.next(&mut links[0], [0, 0]));
    assert_eq!(sent.map(|one| one.is_free), [false, false, true]);
    assert_eq!((&sent[0].block[..3], sent[1].block), (&[0x03, 0x21, 0x01][..], sent[0].block));
    assert_eq!(links[1].take(&sent[1].block)?.notices().count(), 1);
    let before = links[1];
    assert_eq!((links[1].take(&sent[1].block)?.notices().count(), links[1]), (0, before));
    Ok(())
}

/// RR 0 and 1, a UA, and a DM with F = 1 and 0, before any I frame: what the open link did not ask for.
#[test]
fn faults() -> Tried {
    let (mut links, mut path) = (normal()?, Path::default());
    links[0].establish(ZERO)?;
    path.run(&mut links, 4, &[])?;
    let shown = [0x01, 0x21, 0x73, 0x1f, 0x0f].map(|control| {
        let mut block = [0x2b; 23];
        block[..3].copy_from_slice(&[0x01, control, 0x01]);
        links[0].fault(&block)
    });
    assert_eq!(shown, [None, Some(Fault::Nr), Some(Fault::Ua), Some(Fault::Dm), None]);
    assert_eq!((links[0].fault(&[0; 23]), Fault::Dm.word()), (None, "dm"));
    Ok(())
}

#[test]
fn refusals() -> Tried {
    let mut links = normal()?;
    assert_eq!(DataLink::new_for(Role::Mobile, Channel::Sdcch, Establishment::Normal, 0, 6), Err(Invalid::T200));
    assert_eq!(links[1].open(b"id"), Err(Refused::NoCall));
    links[0].establish(ZERO)?;
    let before = links[0];
    assert_eq!(links[0].establish(ZERO), Err(Refused::NotIdle));
    assert_eq!(links[0], before);
    assert_eq!(links[0].to_bytes()[..4], *b"umL2");
    assert_eq!(Refused::NotIdle.to_string(), "the link was opened already, or is being opened or released");
    Ok(())
}
