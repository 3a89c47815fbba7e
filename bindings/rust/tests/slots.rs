//! Tests frame numbers, places and slots on the repository's vectors, made by libosmocore and from osmo-bts's tables, and what is refused.
use std::error::Error;
use um::{Carried, Combination, Direction, Invalid, NotSaved, Slot, Time, FRAMES};

fn vectors(name: &str) -> String {
    std::fs::read_to_string(format!("{}/../../vectors/{name}", env!("CARGO_MANIFEST_DIR"))).expect("the vectors")
}

fn burst() -> [[i8; 148]; 4] {
    um::send_block(&[1; 23], 5).expect("a block").map(|burst| um::soft_from_bits(&burst))
}

#[test]
fn refusals() {
    assert_eq!(um::time_of_frame(FRAMES), Err(Invalid::FrameNumber));
    assert_eq!(um::frame_of_time(&Time { t1: 2048, t2: 0, t3: 0 }), Err(Invalid::Time));
    assert_eq!(um::read_sch(&[2; 25]), Err(Invalid::Bit));
    assert_eq!((um::write_sch(64, 1), um::write_sch(0, FRAMES)), (Err(Invalid::Bsic), Err(Invalid::FrameNumber)));
    assert_eq!((um::write_sch(0, 2), um::write_bsic(64)), (Err(Invalid::NoSch), Err(Invalid::Bsic)));
    assert_eq!((um::read_ra(&[2; 8]), um::read_bsic(&[2; 6])), (Err(Invalid::Bit), Err(Invalid::Bit)));
    let (sdcch8, down) = (Combination::Sdcch8, Direction::Downlink);
    assert_eq!(um::place_frame(sdcch8, down, 8, 0), Err(Invalid::TimeSlot));
    assert_eq!(um::place_frame(sdcch8, down, 0, FRAMES), Err(Invalid::FrameNumber));
    assert_eq!(um::next_block(sdcch8, down, 0, Carried::Bcch, 0, 0), Err(Invalid::Channel));
    assert_eq!(Slot::new(sdcch8, down, 8, 1, 0), Err(Invalid::TimeSlot));
    assert_eq!(Slot::new(sdcch8, down, 0, 0, 0), Err(Invalid::Words));
    assert_eq!(Slot::new(sdcch8, down, 0, 65, 0), Err(Invalid::Words));
    assert_eq!(Slot::new(sdcch8, down, 0, 1, 5), Err(Invalid::Erasures));
    let soft = burst();
    assert_eq!(um::receive_block_erasing(&soft, 0, 0), Err(Invalid::Words));
    assert_eq!(um::receive_block_erasing(&soft, 1, 5), Err(Invalid::Erasures));
    assert_eq!(um::receive_block_erasing(&[[-128; 148]; 4], 1, 0), Err(Invalid::SoftValue));
    assert_eq!(um::detect_training(&[[1; 148]; 4]), Err(Invalid::HardBits));
}

#[test]
fn times() -> Result<(), Box<dyn Error>> {
    let frames = vectors("frames.out");
    let mut count = 0;
    for line in frames.lines() {
        let numbers: Vec<u32> = line.split_whitespace().filter_map(|word| word.parse().ok()).collect();
        if let [frame, t1, t2, t3, ..] = numbers[..] {
            let time = Time { t1: t1.try_into()?, t2: t2.try_into()?, t3: t3.try_into()? };
            assert_eq!((um::time_of_frame(frame)?, um::frame_of_time(&time)?), (time, frame), "{line}");
            count += 1;
        }
    }
    assert!(count > 20, "{count} frames");
    assert_eq!((um::write_ra(0x13), um::read_ra(&um::write_ra(0x13))?), ([1, 1, 0, 0, 1, 0, 0, 0], 0x13));
    assert_eq!((um::write_bsic(33)?, um::read_bsic(&[1, 0, 0, 0, 0, 1])?), ([1, 0, 0, 0, 0, 1], 33));
    let sch = um::read_sch(&um::write_sch(42, 1_000_009)?)?.expect("a frame number"); // 1000009 % 51 = 1
    assert_eq!((sch.frame, sch.bsic, sch.ncc, sch.bcc), (1_000_009, 42, 5, 2));
    assert_eq!(um::read_sch(&[1; 25])?, None);
    Ok(())
}

#[test]
fn schedule() -> Result<(), Box<dyn Error>> {
    let combinations = [Combination::BcchCcch, Combination::BcchCcchSdcch4, Combination::Sdcch8, Combination::TchF];
    let mut count = 0;
    for line in vectors("schedule.out").lines() {
        let words: Vec<&str> = line.split_whitespace().collect();
        let combination = *combinations.iter().find(|combination| combination.word() == words[0]).expect("a combination");
        let direction = if words[1] == Direction::Uplink.word() { Direction::Uplink } else { Direction::Downlink };
        for (frame, wanted) in words[3..].iter().enumerate() {
            let place = um::place_frame(combination, direction, words[2].parse()?, frame as u32)?;
            let found = place.map_or("-".to_owned(), |place| {
                let number = if place.channel == Carried::Ccch { "*".to_owned() } else { place.subchannel.to_string() };
                format!("{}.{number}.{}", place.channel.word(), place.burst)
            });
            assert_eq!(found, *wanted, "{} {frame}", words[0]);
            count += 1;
        }
    }
    assert!(count >= 6 * 102);
    Ok(())
}

#[test]
fn slots() -> Result<(), Box<dyn Error>> {
    let soft = burst();
    // SDCCH/8, subchannel 2: frames 8 to 11 of 51
    let mut slot = Slot::new(Combination::Sdcch8, Direction::Downlink, 3, 1, 0)?;
    let place = um::place_frame(slot.combination(), slot.direction(), 3, 520)?.expect("a place");
    assert_eq!((place.first, place.channel, place.subchannel, place.burst), (518, Carried::Sdcch, 2, 2));
    assert_eq!(um::next_block(slot.combination(), slot.direction(), 3, Carried::Sdcch, 2, 511)?, 518);
    for frame in 518..521 {
        assert_eq!(slot.take(frame, &soft[frame as usize - 518])?, None);
    }
    let saved = slot.to_bytes();
    assert_eq!((saved.len(), &saved[..18]), (611, &b"umT2\x08\x02\0\0\x06\x02\0\0\x02\0\x03\x01\0\x03"[..]));
    assert_eq!(Slot::from_bytes(&saved)?, slot);
    let mut wrong = saved;
    wrong[15] = 0; // no words
    assert_eq!(Slot::from_bytes(&wrong), Err(NotSaved::NoSlot));
    let block = slot.take(521, &soft[3])?.expect("the fourth burst");
    assert_eq!((block.report, block.rank, block.first), (um::receive_block(&soft)?, 1, 518));
    assert_eq!((block.channel, block.subchannel, block.heard), (Carried::Sdcch, 2, 4));
    assert_eq!(block.erasure, um::Erasure { erased: None, wrong_training: [0; 4] });
    assert_eq!((slot.take(521, &soft[0]), slot.take(520, &soft[0])), (Err(Invalid::Doubled), Err(Invalid::Late)));
    assert_eq!((slot.take(FRAMES, &soft[0]), slot.take(522, &[-128; 148])), (Err(Invalid::FrameNumber), Err(Invalid::SoftValue)));
    // hard bits, with the fourth burst: the receiver is as before it
    for frame in 522..525 {
        assert_eq!(slot.take(frame, &[1; 148])?, None);
    }
    let before = slot;
    assert_eq!((slot.take(525, &[0; 148]), slot), (Err(Invalid::HardBits), before));
    assert!(slot.take(525, &[-1; 148])?.is_some());
    // the last two bursts never come: a later frame ends the block
    assert_eq!((slot.take(526, &soft[0])?, slot.take(527, &soft[1])?), (None, None));
    let ended = slot.miss(530)?.expect("the block that began at 526");
    assert_eq!((ended.first, ended.heard, ended.erasure.wrong_training), (526, 2, [0, 0, 26, 26]));
    Ok(())
}

/// Of a block one burst came, all 0 but a single 1. The next block ends it, and each burst of it is taken.
#[test]
fn nearly_lost() -> Result<(), Box<dyn Error>> {
    let (soft, mut weak) = (burst(), [0; 148]);
    weak[70] = 1;
    let mut slot = Slot::new(Combination::Sdcch8, Direction::Downlink, 3, 1, 0)?;
    assert_eq!(slot.take(518, &weak)?, None);
    let ended = slot.take(522, &soft[0])?.expect("the block that began at 518");
    assert_eq!((ended.first, ended.heard, ended.report.accepted()), (518, 1, None));
    assert_eq!((slot.take(523, &soft[1])?, slot.take(524, &soft[2])?), (None, None));
    let block = slot.take(525, &soft[3])?.expect("the fourth burst");
    assert_eq!((block.first, block.heard, block.report), (522, 4, um::receive_block(&soft)?));
    assert!(block.report.accepted().is_some());
    Ok(())
}

#[test]
fn erasures() -> Result<(), Invalid> {
    // a burst from elsewhere with the greatest strength: the block cannot be read with it, and can without
    let mut soft = burst().map(|burst| burst.map(|value| value / 2));
    soft[2] = um::send_block(&[0x5a; 23], 2)?.map(|burst| um::soft_from_bits(&burst))[1];
    assert_eq!(um::receive_block(&soft)?.accepted(), None);
    let (report, rank, erasure) = um::receive_block_erasing(&soft, 1, 4)?;
    assert_eq!((report.accepted(), rank, erasure.erased), (Some(&[1; 23]), 1, Some(2)));
    let (tsc, wrong) = um::detect_training(&soft)?;
    assert_eq!((tsc, wrong[0], wrong[1], wrong[3], wrong == erasure.wrong_training), (5, 0, 0, 0, true));
    assert!(wrong[2] > 0);
    Ok(())
}
