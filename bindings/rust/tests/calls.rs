//! Compares the calls with the repository's vectors, which libosmocoding made, and tests what each call refuses.
use std::error::Error;
use um::{Body, Channel, End, Frame, Invalid, NoFrame, Notice, Reason, Refused, Repair, Sapi, Side};

fn digits<const N: usize>(text: &str) -> [u8; N] {
    let bits: Vec<u8> = text.bytes().map(|digit| digit - b'0').collect();
    bits.try_into().expect("as many digits")
}

fn octets(hex: &str) -> [u8; 23] {
    core::array::from_fn(|i| u8::from_str_radix(&hex[2 * i..2 * i + 2], 16).expect("hexadecimal digits"))
}

fn soft<const N: usize>(bits: &[u8; N]) -> [i8; N] {
    bits.map(|bit| if bit == 0 { 127 } else { -127 })
}

#[test]
fn vectors() -> Result<(), Box<dyn Error>> {
    let here = concat!(env!("CARGO_MANIFEST_DIR"), "/../../vectors/code");
    let (lines, out) = (std::fs::read_to_string(format!("{here}.in"))?, std::fs::read_to_string(format!("{here}.out"))?);
    let mut wanted = out.lines();
    let mut count = 0;
    for line in lines.lines() {
        let words: Vec<&str> = line.split(' ').collect();
        let mut next = || wanted.next().expect("a line for each burst").split(' ').next_back().expect("digits");
        match words[0] {
            "block" => {
                let (tsc, block) = (words[1].parse()?, octets(words[2]));
                let bursts = um::send_block(&block, tsc)?;
                assert_eq!(bursts, core::array::from_fn(|_| digits(next())));
                let report = um::receive_block(&bursts.map(|burst| soft(&burst)))?;
                assert_eq!((report.accepted(), report.tsc, report.metric, report.wrong_coded), (Some(&block), tsc, 57912, 0));
            }
            "rach" => {
                let (info, bsic) = (digits(words[1]), digits(words[2]));
                let burst = um::send_access(&info, &bsic)?;
                assert_eq!(burst, digits(next()));
                assert_eq!(um::receive_access(&soft(&burst), &bsic)?.accepted(), Some(&info));
            }
            _ => {
                let info = digits(words[1]);
                let burst = um::send_sync(&info)?;
                assert_eq!(burst, digits(next()));
                assert_eq!(um::receive_sync(&soft(&burst))?.accepted(), Some(&info));
            }
        }
        count += 1;
    }
    assert!(count > 100 && wanted.next().is_none());
    Ok(())
}

#[test]
fn invalid_arguments() {
    let mut values = [[0i8; 148]; 4];
    assert_eq!(um::send_block(&[0; 23], 8), Err(Invalid::TrainingSequence));
    assert_eq!(um::receive_block_among(&values, 0), Err(Invalid::Words));
    assert_eq!(um::receive_block_among(&values, 65), Err(Invalid::Words));
    values[3][147] = -128;
    assert_eq!(um::receive_block(&values), Err(Invalid::SoftValue));
    assert_eq!(um::receive_block_among(&values, 64), Err(Invalid::SoftValue));
    assert_eq!(um::margin_block(&values), Err(Invalid::SoftValue));
    assert_eq!(um::repair(&[2; 224]), Err(Invalid::Bit));
    assert_eq!(um::send_access(&[0; 8], &[2; 6]), Err(Invalid::Bit));
    assert_eq!(um::receive_access(&[0; 88], &[2; 6]), Err(Invalid::Bit));
    assert_eq!(um::receive_access(&[-128; 88], &[0; 6]), Err(Invalid::SoftValue));
    assert_eq!(um::send_sync(&[2; 25]), Err(Invalid::Bit));
    assert_eq!(um::receive_sync(&[-128; 148]), Err(Invalid::SoftValue));
    for info in [&[0u8; 21][..], &[]] {
        let frame = Frame { sapi: 0, cr: false, body: Body::I { ns: 0, nr: 0, p: false, more: false, info } };
        assert_eq!(um::write_frame(&frame, Channel::Sdcch), Err(Invalid::Frame));
    }
}

#[test]
fn margin_and_repair() -> Result<(), Invalid> {
    let bursts = um::send_block(&[0; 23], 0)?;
    assert_eq!(um::margin_block(&bursts.map(|burst| soft(&burst)))?.margin, 7 * 254);
    let mut word: [u8; 224] = core::array::from_fn(|i| u8::from(i >= 184)); // the CRC of 23 octets of zeros is 40 ones
    assert_eq!(um::repair(&word)?, Repair::Holds);
    (word[184], word[195]) = (0, 0);
    let report = match um::repair(&word)? {
        Repair::Repaired(report) => report,
        other => panic!("a burst of twelve places is put right, not {other:?}"),
    };
    assert_eq!((report.first, report.span, report.word[184], report.word[195]), (184, 12, 1, 1));
    word[0] = 1;
    assert_eq!(um::repair(&word)?, Repair::NoRepair);
    Ok(())
}

#[test]
fn readings() {
    for (first, reason) in [
        ("490601", NoFrame::Lpd), ("000000", NoFrame::Ea), ("010d01", NoFrame::Control), ("010300", NoFrame::El),
        ("010055", NoFrame::Length), ("010001", NoFrame::Empty), ("010303", NoFrame::More),
    ] {
        assert_eq!(um::read_frame(&octets(&(first.to_owned() + &"2b".repeat(20))), Channel::Sdcch), Err(reason));
    }
}

// system information 6, whose L2 pseudo length is 11, by 3GPP TS 44.018, 9.1.40
#[test]
fn format_b4() {
    let block = octets("050303032d061e000162f210000105ff8b2b2b2b2b2b2b");
    let info = um::read_b4(&block).expect("a frame of format B4");
    assert_eq!(info[..], block[4..]);
    assert_eq!(um::write_b4([5, 3], &info), block);
    assert_eq!(um::read_b4(&octets(&("05030301".to_owned() + &"2b".repeat(19)))), None);
}

#[test]
fn session() -> Result<(), Box<dyn Error>> {
    let (mut mobile, mut network) = (End::mobile(Sapi::ShortMessages, Channel::Sacch), End::network(Sapi::ShortMessages, Channel::Sacch));
    assert_eq!(mobile.open(&[1]), Err(Refused::NoCall));
    assert_eq!(mobile.send(&[1]), Err(Refused::NotOpen));
    let answer = network.take(&mobile.open_bare()?.frames()[0])?;
    assert_eq!(mobile.take(&answer.frames()[0])?.notices().next(), Some(Notice::Opened(&[])));
    assert_eq!(mobile.open_bare(), Err(Refused::NotIdle));
    assert_eq!(mobile.timer(), Err(Refused::NotRunning));
    assert_eq!(mobile.send(&[]), Err(Refused::Empty));
    assert_eq!(mobile.send(&[0; 252]), Err(Refused::TooLong));
    assert_eq!(mobile.unit(&[0; 1000]), Err(Refused::TooLong));
    assert_eq!(mobile.take(&[0; 23]), Err(Refused::NoFrame));
    let mut full = mobile;
    for _ in 0..8 {
        assert!(full.send(&[1]).is_ok());
    }
    assert_eq!(full.send(&[1]), Err(Refused::Full));
    assert_ne!(full, mobile);
    let message: Vec<u8> = (0..40).collect();
    let mut sent = mobile.send(&message)?;
    for piece in 1..=3 {
        let got = network.take(&sent.frames()[0])?;
        assert_eq!(got.notices().next(), (piece == 3).then_some(Notice::Got(&message)));
        sent = mobile.take(&got.frames()[0])?;
    }
    assert_eq!(sent.notices().next(), Some(Notice::Acked(1)));
    let released = network.take(&mobile.close()?.frames()[0])?;
    assert_eq!(released.notices().next(), Some(Notice::Closed(Reason::Released)));
    assert_eq!(mobile.take(&released.frames()[0])?.notices().next(), Some(Notice::Closed(Reason::Released)));
    Ok(())
}

#[test]
fn both_links() -> Result<(), Box<dyn Error>> {
    let (mut mobile, mut network) = (Side::mobile(Channel::Sdcch), Side::network(Channel::Sdcch));
    assert_eq!(network.open(&[1]), Err(Refused::NoCall));
    let (asked0, asked3) = (mobile.open(&[1, 2])?, mobile.open_bare()?);
    for (wanted, asked, info) in [(Sapi::ShortMessages, asked3, &[][..]), (Sapi::Signalling, asked0, &[1, 2])] {
        let (sapi, answer) = network.take(&asked.frames()[0])?;
        assert_eq!((sapi, answer.notices().next()), (wanted, Some(Notice::Opened(info))));
        let (sapi, opened) = mobile.take(&answer.frames()[0])?;
        assert_eq!((sapi, opened.notices().next()), (wanted, Some(Notice::Opened(info))));
    }
    let up = mobile.send(Sapi::Signalling, b"up")?;
    assert_eq!(network.send(Sapi::ShortMessages, b"down")?.frames().len(), 1);
    assert_eq!(mobile.timer(Sapi::ShortMessages), Err(Refused::NotRunning));
    let (sapi, got) = mobile.take(&network.timer(Sapi::ShortMessages)?.frames()[0])?;
    assert_eq!((sapi, got.notices().next()), (Sapi::ShortMessages, Some(Notice::Got(b"down"))));
    let (sapi, acked) = network.take(&got.frames()[0])?;
    assert_eq!((sapi, acked.notices().next()), (Sapi::ShortMessages, Some(Notice::Acked(1))));
    let (sapi, got) = network.take(&up.frames()[0])?;
    assert_eq!((sapi, got.notices().next()), (Sapi::Signalling, Some(Notice::Got(b"up"))));
    let (sapi, unit) = network.take(&mobile.unit(Sapi::ShortMessages, b"u")?.frames()[0])?;
    assert_eq!((sapi, unit.notices().next()), (Sapi::ShortMessages, Some(Notice::Unit(b"u"))));
    assert_eq!(network.take(&mobile.idle()?.frames()[0])?.1.frames().len(), 0);
    let before = *mobile.end(Sapi::Signalling);
    let (_, closed) = mobile.take(&network.close(Sapi::ShortMessages)?.frames()[0])?;
    assert_eq!(closed.notices().next(), Some(Notice::Closed(Reason::Released)));
    assert_eq!(mobile.send(Sapi::ShortMessages, b"x"), Err(Refused::NotOpen));
    assert_eq!(mobile.take(&[0; 23]), Err(Refused::NoFrame));
    assert_eq!(before, *mobile.end(Sapi::Signalling));
    Ok(())
}

#[test]
fn errors_say_what_was_wrong() {
    let errors: [(Box<dyn Error>, &str); 5] = [
        (Box::new(Invalid::SoftValue), "-128"), (Box::new(NoFrame::Ea), "address"), (Box::new(Refused::Empty), "at least one octet"),
        (Box::new(Refused::TooLong), "at most 251 octets, open and unit 20 (18 on SACCH)"),
        (Box::new(Refused::NoCall), "open, unless it is of normal establishment; either end opens SAPI 3 with open_bare"),
    ];
    for (error, words) in errors {
        assert!(error.to_string().contains(words), "{error}");
    }
}
