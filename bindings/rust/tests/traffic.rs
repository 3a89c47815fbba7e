//! Traffic channels and ciphering: blocks of FACCH recorded of osmo-bts with the octets that libosmocoding found (vectors/facch.out).
use std::error::Error;
use um::{Combination, Direction, Invalid, NotSaved, Slot, Traffic, TrafficChannel, TrafficKind, TrafficSender};

struct Recorded {
    channel: TrafficChannel,
    timeslot: u8,
    octets: [u8; 23],
    bursts: Vec<(u32, [u8; 148])>,
}

fn recorded() -> Result<Vec<Recorded>, Box<dyn Error>> {
    let mut blocks: Vec<Recorded> = Vec::new();
    let text = std::fs::read_to_string(concat!(env!("CARGO_MANIFEST_DIR"), "/../../vectors/facch.out"))?;
    for line in text.lines().filter(|line| !line.starts_with('#')) {
        let words: Vec<&str> = line.split(' ').collect();
        if words[0] == "block" {
            let channel = match words[1] {
                "full" => TrafficChannel::FullRate,
                "half0" => TrafficChannel::HalfRate0,
                _ => TrafficChannel::HalfRate1,
            };
            let octets = core::array::from_fn(|i| u8::from_str_radix(&words[3][2 * i..2 * i + 2], 16).expect("hexadecimal digits"));
            blocks.push(Recorded { channel, timeslot: words[2].parse()?, octets, bursts: Vec::new() });
        } else if let Some(block) = blocks.last_mut() {
            let bits: Vec<u8> = words[1].bytes().map(|digit| digit - b'0').collect();
            block.bursts.push((words[0].parse()?, bits.try_into().expect("148 bits")));
        }
    }
    Ok(blocks)
}

#[test]
fn blocks_of_facch() -> Result<(), Box<dyn Error>> {
    let blocks = recorded()?;
    assert_eq!(blocks.len(), 52);
    for Recorded { channel, timeslot, octets, bursts } in blocks {
        let mut traffic = Traffic::new(channel, Direction::Downlink, timeslot, 4, 0)?;
        let mut last = None;
        for (frame, bits) in &bursts {
            last = Some(traffic.take(*frame, &um::soft_from_bits(bits))?);
        }
        let heard = last.expect("bursts");
        let block = heard.blocks().last().expect("a block");
        let first = bursts[0].0;
        assert_eq!((block.kind, block.block.report.accepted(), block.block.first), (TrafficKind::Facch, Some(&octets), first));
        assert_eq!((block.flags, um::stealing_flags(&block.bursts)?, block.block.heard), (-1016, (-1016, 0), bursts.len() as u8));
        let soft: Vec<[i8; 148]> = bursts.iter().map(|(_, bits)| um::soft_from_bits(bits)).collect();
        assert_eq!(traffic.bursts(), soft);
        assert_eq!(um::next_facch(channel, Direction::Downlink, first)?, first);
        let (begun, ended) = (bursts[0].0, bursts[bursts.len() - 1].0);
        let begins = um::place_traffic(channel, Direction::Downlink, begun)?.expect("a place").begins;
        assert_eq!(um::place_traffic(channel, Direction::Downlink, ended)?.expect("a place").ends, begins);
        // joined and stolen by hand
        let (sent, plain): (_, Vec<[u8; 148]>) = (um::send_block(&octets, 5)?, bursts.iter().map(|(_, bits)| *bits).collect());
        if let Ok(mut eight) = <[[u8; 148]; 8]>::try_from(plain.clone()) {
            let mut carrying: [[i8; 148]; 8] = soft.try_into().expect("eight");
            assert_eq!(um::join_facch_f(&carrying)?, block.bursts);
            // the third of the bursts is inverted and stronger: erased as it was sent, the block is received
            carrying = std::array::from_fn(|at| carrying[at].map(|bit| if at == 2 { -bit } else { bit / 2 }));
            let (report, rank, erasure) = um::receive_facch_f_erasing(&carrying, 1, 1)?;
            assert_eq!((report.accepted(), rank, erasure.erased), (Some(&octets), 1, Some(2)));
            assert_eq!((erasure.wrong_training, report.wrong_training), ([0, 0, 26, 0, 0, 0, 0, 0], 26));
            assert_eq!(um::receive_facch_f_erasing(&carrying, 1, 0)?.0.accepted(), None);
            assert_eq!(um::receive_facch_f_erasing(&carrying, 1, 9), Err(Invalid::Erasures));
            um::steal_facch_f(&sent, &mut eight)?;
            assert_eq!(eight.to_vec(), plain);
        } else {
            let mut six = <[[u8; 148]; 6]>::try_from(plain.clone()).expect("six");
            let mut carrying: [[i8; 148]; 6] = soft.try_into().expect("six");
            assert_eq!(um::join_facch_h(&carrying)?, block.bursts);
            carrying[2] = carrying[2].map(|bit| -bit);
            let (report, _, erasure) = um::receive_facch_h_erasing(&carrying, 64, 1)?;
            assert_eq!((report.accepted(), erasure.erased), (Some(&octets), Some(2)));
            um::steal_facch_h(&sent, &mut six)?;
            assert_eq!(six.to_vec(), plain);
        }
    }
    Ok(())
}

#[test]
fn missing_late_and_nearly_lost() -> Result<(), Box<dyn Error>> {
    let soft = um::send_block(&[3; 23], 5)?.map(|burst| um::soft_from_bits(&burst));
    let mut traffic = Traffic::new(TrafficChannel::FullRate, Direction::Uplink, 2, 16, 4)?;
    traffic.set_limit(20)?;
    assert_eq!((traffic.set_limit(79), traffic.channel()), (Err(Invalid::Limit), TrafficChannel::FullRate));
    let mut weak = [0; 148];
    weak[70] = 1;
    for frame in 0..3 {
        assert_eq!(traffic.take(frame, &weak)?.blocks().count(), 0);
    }
    let before = traffic;
    // the blocks before end with a later frame, whose burst is not to blame for them
    let heard: Vec<u8> = traffic.take(26, &soft[0])?.blocks().map(|block| block.block.heard).collect();
    assert_eq!(heard, [3, 3]);
    assert_eq!((traffic.take(26, &soft[0]), traffic.take(20, &soft[0])), (Err(Invalid::Doubled), Err(Invalid::Late)));
    assert_eq!((traffic.take(um::FRAMES, &soft[0]), traffic.take(27, &[-128; 148])), (Err(Invalid::FrameNumber), Err(Invalid::SoftValue)));
    traffic = before;
    assert_eq!((traffic.take(3, &weak), traffic), (Err(Invalid::HardBits), before));
    assert_eq!(traffic.end().blocks().map(|block| block.block.heard).collect::<Vec<_>>(), [3, 3]);
    traffic.restart();
    assert_eq!(traffic.end().blocks().count(), 0);
    assert_eq!(um::place_traffic(TrafficChannel::FullRate, Direction::Uplink, 12)?, None);
    Ok(())
}

#[test]
fn blocks_that_are_sent() -> Result<(), Box<dyn Error>> {
    for Recorded { channel, timeslot, octets, bursts } in recorded()? {
        let mut sender = TrafficSender::new(channel, Direction::Downlink, 5)?;
        assert_eq!((sender.speech(&[[0; 148]; 4])?, sender.facch(&octets), sender.facch(&octets)), (true, true, false));
        assert_eq!((sender.speech(&[[0; 148]; 4])?, sender.speech(&[[2; 148]; 4])), (false, Err(Invalid::Bit)));
        let (first, last) = (bursts[0].0, bursts[bursts.len() - 1].0);
        assert_eq!(sender.burst(first - 1)?, None);
        let mut sender = TrafficSender::from_bytes(&sender.to_bytes())?;
        let mut traffic = Traffic::new(channel, Direction::Downlink, timeslot, 1, 0)?;
        let mut frames = Vec::new();
        let mut heard = None;
        for frame in first..=last {
            if let Some(bits) = sender.burst(frame)? {
                assert_eq!(sender.burst(frame)?, Some(bits));
                frames.push(frame);
                traffic = Traffic::from_bytes(&traffic.to_bytes())?;
                heard = traffic.take(frame, &um::soft_from_bits(&bits))?.blocks().last().copied();
            }
        }
        assert_eq!(frames, bursts.iter().map(|(frame, _)| *frame).collect::<Vec<_>>());
        let block = heard.expect("a block");
        assert_eq!((block.kind, block.block.report.accepted(), block.flags), (TrafficKind::Facch, Some(&octets), -1016));
        assert_eq!((sender.burst(last + 26)?, sender.burst(first), sender.channel()), (None, Err(Invalid::Late), channel));
    }
    assert_eq!(TrafficSender::new(TrafficChannel::FullRate, Direction::Uplink, 8), Err(Invalid::TrainingSequence));
    let mut octets = TrafficSender::new(TrafficChannel::FullRate, Direction::Uplink, 7)?.to_bytes();
    assert_eq!((octets.len(), &octets[..4]), (um::TRAFFIC_SENDER_OCTETS, &b"umO1"[..]));
    octets[4..7].fill(1);
    assert_eq!(TrafficSender::from_bytes(&octets), Err(NotSaved::NoTraffic));
    assert_eq!(Traffic::from_bytes(&[[0; um::TRAFFIC_OCTETS - 4].as_slice(), b"umC1"].concat()).map(|_| ()), {
        Err(NotSaved::Head { found: [0; 4], expected: b"umC1" })
    });
    Ok(())
}

#[test]
fn slots_restart_and_end() -> Result<(), Box<dyn Error>> {
    let soft = um::send_block(&[3; 23], 5)?.map(|burst| um::soft_from_bits(&burst));
    let mut slot = Slot::new(Combination::Sdcch8, Direction::Downlink, 3, 16, 4)?;
    slot.set_limit(20)?;
    let new = slot;
    assert_eq!((slot.end(), slot.limit(), slot.set_limit(79)), (None, 20, Err(Invalid::Limit)));
    slot.take(51_000, &soft[0])?;
    assert_eq!(slot.take(0, &soft[0]), Err(Invalid::Late));
    slot.restart();
    assert_eq!(slot, new);
    for frame in 0..3 {
        assert_eq!(slot.take(frame, &soft[frame as usize])?, None);
    }
    assert_eq!(Slot::from_bytes(&slot.to_bytes())?, slot);
    let block = slot.end().expect("three bursts");
    assert_eq!((block.first, block.heard, block.report.accepted()), (0, 3, Some(&[3; 23])));
    Ok(())
}

#[test]
fn ciphered_bursts() -> Result<(), Invalid> {
    let bits = um::send_block(&[3; 23], 5)?[0];
    let stream: [u8; 114] = core::array::from_fn(|i| (i * i % 3 == 1) as u8);
    let ciphered = um::cipher_bits(&bits, &stream)?;
    let places = (3..60).chain(88..145);
    for (place, bit) in places.zip(stream) {
        assert_eq!(ciphered[place], bits[place] ^ bit);
    }
    assert_eq!((ciphered[..3] == bits[..3], ciphered[60..88] == bits[60..88], ciphered[145..] == bits[145..]), (true, true, true));
    assert_eq!(um::soft_cipher(&um::soft_from_bits(&ciphered), &stream)?, um::soft_from_bits(&bits));
    assert_eq!((um::cipher_bits(&bits, &[2; 114]), um::soft_cipher(&[0; 148], &[2; 114])), (Err(Invalid::Bit), Err(Invalid::Bit)));
    assert_eq!(um::soft_cipher(&[-128; 148], &stream), Err(Invalid::SoftValue));
    Ok(())
}
