//! Tests hard bits, soft bits, words, SAPIs, accessors and saved states. The saved form's places are worked by hand from um.h.
use std::convert::TryFrom;
use std::error::Error;
use um::{Body, Channel, End, Invalid, Kind, NoFrame, NotSaved, Notice, Reason, Refused, Role, Sapi, Side, State};

#[test]
fn hard_bits_are_refused() -> Result<(), Invalid> {
    let hard = um::send_block(&[3; 23], 5)?.map(|burst| burst.map(|bit| bit as i8));
    assert_eq!(um::receive_block(&hard), Err(Invalid::HardBits));
    assert_eq!(um::receive_block_among(&hard, 64), Err(Invalid::HardBits));
    assert_eq!(um::margin_block(&hard), Err(Invalid::HardBits));
    let mut single = [[0; 148]; 4];
    assert!(um::receive_block(&single)?.accepted().is_none()); // a lost block
    single[3][147] = 1;
    assert_eq!(um::receive_block(&single), Err(Invalid::HardBits));
    single[0][0] = -1;
    assert!(um::receive_block(&single).is_ok());
    assert_eq!(um::receive_access(&[1; 88], &[0; 6]), Err(Invalid::HardBits));
    assert_eq!(um::receive_sync(&[1; 148]), Err(Invalid::HardBits));
    Ok(())
}

#[test]
fn version_of_the_library() {
    let (major, minor, patch) = um::version();
    assert_eq!(format!("{major}.{minor}.{patch}"), env!("CARGO_PKG_VERSION").trim_end_matches("-dev"));
}

#[test]
fn debug() -> Result<(), Box<dyn Error>> {
    let mut mobile = End::mobile(Sapi::ShortMessages, Channel::Sacch);
    let effects = mobile.open_bare()?;
    assert_eq!(format!("{mobile:?}"), "End { role: Mobile, sapi: ShortMessages, channel: Sacch, state: Opening }");
    let (before, after) = (format!("{effects:?}"), format!("{:?}", effects.frames()));
    assert_eq!(before, format!("Effects {{ frames: {after}, notices: [] }}"));
    let slot = um::Slot::new(um::Combination::TchF, um::Direction::Uplink, 5, 16, 4)?;
    assert_eq!(format!("{slot:?}"), "Slot { combination: TchF, direction: Uplink, timeslot: 5, words: 16, erasures: 4, limit: 78 }");
    Ok(())
}

#[test]
fn soft_bits() -> Result<(), Invalid> {
    assert_eq!(um::soft_from_bits(&[0, 1]), [127, -127]);
    assert_eq!(um::soft_from_sbits(&[-128, -127, 0, 127]), [-127, -127, 0, 127]);
    assert_eq!(um::soft_from_trx(&[0, 1, 127, 128, 254, 255]), [127, 126, 0, -1, -127, -127]);
    // halves to even, and limits
    let ratios = [0.5, 1.5, 2.5, -0.5, -1.5, -2.5, 126.5, 1e30, -1e30, f32::INFINITY, f32::NEG_INFINITY, 0.49999997, 3.3];
    assert_eq!(um::soft_from_llr(&ratios, 1.0)?, [0, 2, 2, 0, -2, -2, 126, 127, -127, 127, -127, 0, 3]);
    assert_eq!(um::soft_from_llr(&[1.0, -31.75, 40.0], um::LLR_SCALE)?, [4, -127, 127]);
    assert_eq!(um::soft_from_llr(&[1.0], -50.0)?, [-50]);
    assert_eq!(um::soft_from_llr(&[-15.0], 3.3)?, [-49]); // -49.4999993, and -49.5 as a float
    for (ratio, scale) in [(f32::NAN, 1.0), (1.0, 0.0), (1.0, f32::NAN), (1.0, f32::INFINITY)] {
        assert_eq!(um::soft_from_llr(&[ratio], scale), Err(Invalid::Ratio));
    }
    let mut raw = [0; 592];
    (raw[0], raw[148], raw[591]) = (0x81, 5, 0x7f);
    let bursts = um::bursts_from_raw(&raw);
    assert_eq!((bursts[0][0], bursts[1][0], bursts[3][147], bursts[0][1]), (-127, 5, 127, 0));
    Ok(())
}

#[test]
fn words() -> Result<(), Invalid> {
    let kinds = [Kind::I, Kind::Rr, Kind::Rnr, Kind::Rej, Kind::Sabm, Kind::Dm, Kind::Ui, Kind::Disc, Kind::Ua];
    assert_eq!(kinds.map(Kind::word).join(" "), "i rr rnr rej sabm dm ui disc ua");
    let unread = [NoFrame::Lpd, NoFrame::Ea, NoFrame::Control, NoFrame::El, NoFrame::Length, NoFrame::Empty, NoFrame::More];
    assert_eq!(unread.map(NoFrame::word).join(" "), "lpd ea control el length empty more");
    let refused = [
        Refused::NotIdle, Refused::NotOpen, Refused::NotRunning, Refused::Empty, Refused::TooLong, Refused::Full, Refused::NoCall,
        Refused::NoFrame,
    ];
    assert_eq!(refused.map(Refused::word).join(" "), "notidle notopen notrunning empty toolong full nocall noframe");
    let reasons = [Reason::Contention, Reason::Failed, Reason::Refused, Reason::Released];
    assert_eq!(reasons.map(Reason::word).join(" "), "contention failed refused released");
    let states = [State::Idle, State::Opening, State::Open, State::Closing, State::Closed];
    assert_eq!(states.map(State::word).join(" "), "idle opening open closing closed");
    let others = [Channel::Sdcch.word(), Channel::Sacch.word(), Role::Mobile.word(), Role::Network.word()];
    assert_eq!(others, ["sdcch", "sacch", "mobile", "network"]);
    let notices = [
        Notice::Opened(&[]), Notice::Got(&[]), Notice::Unit(&[]), Notice::Acked(1), Notice::Oversize, Notice::Closed(Reason::Failed),
    ];
    assert_eq!(notices.map(|notice| notice.word()).join(" "), "opened got unit acked oversize closed");
    let body = Body::Sabm { p: true, info: &[1] };
    assert_eq!((body.kind(), body.awaits_answer(), Body::Ua { f: true, info: &[] }.awaits_answer()), (Kind::Sabm, true, false));
    assert_eq!((Sapi::try_from(0), Sapi::try_from(3)), (Ok(Sapi::Signalling), Ok(Sapi::ShortMessages)));
    assert_eq!(Sapi::try_from(1), Err(Invalid::Sapi));
    assert_eq!(u8::from(Sapi::ShortMessages), 3);
    Ok(())
}

#[test]
fn saved_ends() -> Result<(), Box<dyn Error>> {
    let (mut network, mut mobile) = (End::network(Sapi::ShortMessages, Channel::Sacch), End::mobile(Sapi::ShortMessages, Channel::Sacch));
    assert_eq!((network.role(), network.sapi(), network.channel()), (Role::Network, Sapi::ShortMessages, Channel::Sacch));
    assert_eq!((network.state(), network.timer_runs()), (State::Idle, false));
    assert_eq!(network.to_bytes()[..16], *b"umE1\0\0\0\0\0\0\0\0\x01\x03\x01\0");
    let asked = network.open_bare()?;
    assert_eq!((network.state(), network.timer_runs()), (State::Opening, true));
    let answered = mobile.take(&asked.frames()[0])?;
    let opened = network.take(&answered.frames()[0])?;
    assert_eq!((opened.notices().len(), network.state(), network.timer_runs()), (1, State::Open, false));
    assert_eq!(network.send(&[7, 8, 9])?.frames().len(), 1);
    let octets = network.to_bytes();
    // 4 of the head, 8 of done, 11 before held_count; 2 later `kept`, two messages before `held`
    assert_eq!((octets.len(), octets[15], octets[23], octets[25]), (2585, 2, 1, 0));
    assert_eq!(octets[25 + 512..25 + 517], [3, 7, 8, 9, 0]);
    let restored = End::from_bytes(&octets)?;
    assert_eq!((restored, restored.to_bytes()), (network, octets));
    assert_eq!(End::from_bytes(&octets[4..]), Err(NotSaved::Length { found: 2581, expected: 2585 }));
    let mut other = octets;
    other[3] = b'2';
    let error = End::from_bytes(&other).unwrap_err();
    assert_eq!(error.to_string(), "the octets begin with \"umE2\"; expected \"umE1\"");
    (other[3], other[12]) = (b'1', 2);
    assert_eq!(End::from_bytes(&other), Err(NotSaved::NoEnd)); // no such role
    Ok(())
}

#[test]
fn saved_sides() -> Result<(), Box<dyn Error>> {
    let mut side = Side::mobile(Channel::Sdcch);
    assert_eq!(side.open(&[5, 36])?.frames().len(), 1);
    assert_eq!((side.role(), side.channel()), (Role::Mobile, Channel::Sdcch));
    assert_eq!((side.timer_runs(Sapi::Signalling), side.timer_runs(Sapi::ShortMessages)), (true, false));
    let octets = side.to_bytes();
    assert_eq!((octets.len(), &octets[..4]), (5166, &b"umS1"[..]));
    let (link0, link3) = (side.end(Sapi::Signalling).to_bytes(), side.end(Sapi::ShortMessages).to_bytes());
    assert_eq!((&octets[4..4 + 2581], &octets[4 + 2581..]), (&link0[4..], &link3[4..]));
    assert_eq!(Side::from_bytes(&octets)?, side);
    for (at, value) in [(15, 9), (4 + 2581 + 11, 9), (4 + 2581 + 10, 1)] {
        let mut wrong = octets;
        wrong[at] = value; // a state, a state, and another channel
        assert_eq!(Side::from_bytes(&wrong), Err(NotSaved::NoEnd));
    }
    assert!(End::from_bytes(&octets).is_err());
    Ok(())
}
