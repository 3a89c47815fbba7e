//! Writes the blocks of one time slot as a capture for Wireshark, with the frame numbers and times of their first bursts.
//!
//!     receiver COMBINATION TIMESLOT trx|int8|bits|grgsm [BURSTS] > CAPTURE.pcap
//!
//! BURSTS, or else standard input, has a record for each burst that came, in the order of the frames: the frame number in four octets, most
//! significant first, and 148 octets as the TRX protocol sends them, as soft bits, or as hard bits. `grgsm` is a file of `grgsm_capture
//! -b`, with bursts of all time slots.
//!
//!     cargo run --manifest-path examples/rust/Cargo.toml --bin receiver bcch_ccch 0 grgsm vectors/grgsm.bursts > capture.pcap
use std::error::Error;
use std::io::{self, Read, Write};
use um::{Carried, Combination, Direction, Invalid, Slot, SlotBlock};

type Failed = Box<dyn Error>;

const COMBINATIONS: [Combination; 5] =
    [Combination::BcchCcch, Combination::BcchCcchSdcch4, Combination::Sdcch8, Combination::TchF, Combination::TchH];
const LATE_IN_A_ROW: u32 = 8;
const FORMS: [(&str, Form); 4] = [("trx", Form::Trx), ("int8", Form::Int8), ("bits", Form::Bits), ("grgsm", Form::GrGsm)];

#[derive(Clone, Copy, PartialEq)]
enum Form {
    Trx,
    Int8,
    Bits,
    GrGsm,
}

impl Form {
    /// The octets of a record, and where its frame number and its burst begin.
    fn layout(self) -> (usize, usize, usize) {
        if self == Form::GrGsm { (174, 18, 26) } else { (152, 0, 4) }
    }

    fn soft(self, burst: &[u8; 148]) -> Result<[i8; 148], Failed> {
        match self {
            Form::Trx => Ok(um::soft_from_trx(burst)),
            Form::Int8 => Ok(um::soft_from_sbits(&burst.map(|octet| octet as i8))),
            Form::Bits | Form::GrGsm => match burst.iter().position(|&bit| bit > 1) {
                Some(at) => Err(format!("bit {at} is {}; expected 0 or 1", burst[at]).into()),
                None => Ok(um::soft_from_bits(burst)),
            },
        }
    }
}

/// The frame number and the burst in a record; none if gr-gsm's record is of another time slot, or not a normal burst.
fn burst_of(record: &[u8], form: Form, timeslot: u8) -> Result<Option<(u32, [i8; 148])>, Failed> {
    let (size, frame, burst) = form.layout();
    if record.len() != size {
        return Err(format!("it is the last one and has {} octets; expected {size}", record.len()).into());
    }
    if record.iter().all(|&octet| octet == b'\n' || (b' '..=b'~').contains(&octet)) {
        return Err(format!("it is text; expected {size} octets, with the frame number at {frame}").into());
    }
    if form == Form::GrGsm && (record[13] != timeslot || record[22] != 6) {
        return Ok(None);
    }
    let number = u32::from_be_bytes(record[frame..frame + 4].try_into()?);
    Ok(Some((number, form.soft(record[burst..burst + 148].try_into()?)?)))
}

/// An IP packet with a block of 23 octets.
fn packet(block: &SlotBlock, octets: &[u8; 23], timeslot: u8, kind: u8) -> Vec<u8> {
    let mut data = vec![0x45, 0, 0, 67, 0, 0, 0, 0, 64, 17, 0, 0, 127, 0, 0, 1, 127, 0, 0, 1]; // IP
    data.extend([0x12, 0x79, 0x12, 0x79, 0, 47, 0, 0]); // UDP, port 4729
    data.extend([2, 4, 1, timeslot, 0, 0, 0, 0]); // GSMTAP
    data.extend(block.first.to_be_bytes());
    data.extend([kind, 0, block.subchannel, 0]);
    data.extend(octets);
    data
}

/// The channel types of GSMTAP.
fn kind_of(channel: Carried, combination: Combination) -> u8 {
    match (channel, combination) {
        (Carried::Bcch, _) => 1,
        (Carried::Ccch, _) => 2,
        (Carried::Sdcch, Combination::BcchCcchSdcch4) => 7,
        (Carried::Sdcch, _) => 8,
        (_, Combination::BcchCcchSdcch4) => 0x87,
        (_, Combination::Sdcch8) => 0x88,
        (_, Combination::TchH) => 0x8a,
        _ => 0x89,
    }
}

/// A time slot, and how many late bursts came in a row.
struct Receiver {
    slot: Slot,
    late: u32,
}

impl Receiver {
    /// Takes a burst. A doubled or late one is left out; after many late ones in a row a frame number before them was false, or another
    /// recording begins.
    fn take(&mut self, frame: u32, soft: &[i8; 148]) -> Result<Option<SlotBlock>, Failed> {
        let late = match self.slot.take(frame, soft) {
            Err(Invalid::Doubled) => return Ok(None),
            Err(Invalid::Late) if self.late + 1 < LATE_IN_A_ROW => self.late + 1,
            Err(Invalid::Late) => {
                self.slot.restart();
                0
            }
            taken => {
                self.late = 0;
                return taken.map_err(|why| format!("the burst of frame {frame}: {why}").into());
            }
        };
        self.late = late;
        if late == 0 { Ok(self.slot.take(frame, soft)?) } else { Ok(None) }
    }
}

fn write(block: &SlotBlock, timeslot: u8, combination: Combination, out: &mut impl Write) -> Result<(), Failed> {
    if let Some(octets) = block.report.accepted() {
        let data = packet(block, octets, timeslot, kind_of(block.channel, combination));
        let (count, time) = (data.len() as u32, u64::from(block.first) * 120_000 / 26); // a frame takes 120 / 26 ms
        for field in [(time / 1_000_000) as u32, (time % 1_000_000) as u32, count, count] {
            out.write_all(&field.to_le_bytes())?;
        }
        out.write_all(&data)?;
        out.flush()?;
    }
    Ok(())
}

fn receive(mut receiver: Receiver, timeslot: u8, form: Form, mut file: impl Read, mut out: impl Write) -> Result<(), Failed> {
    let combination = receiver.slot.combination();
    out.write_all(&[0xd4, 0xc3, 0xb2, 0xa1, 2, 0, 4, 0, 0, 0, 0, 0, 0, 0, 0, 0, 0xff, 0xff, 0, 0, 101, 0, 0, 0])?;
    for number in 1.. {
        let mut record = Vec::new();
        file.by_ref().take(form.layout().0 as u64).read_to_end(&mut record)?;
        if record.is_empty() {
            break;
        }
        let taken = burst_of(&record, form, timeslot).and_then(|burst| match burst {
            Some((frame, soft)) => receiver.take(frame, &soft),
            None => Ok(None),
        });
        if let Some(block) = taken.map_err(|why| format!("record {number}: {why}"))? {
            write(&block, timeslot, combination, &mut out)?;
        }
    }
    receiver.slot.end().map_or(Ok(()), |block| write(&block, timeslot, combination, &mut out))
}

fn run(words: &[String]) -> Result<(), Failed> {
    let (combination, timeslot, form, name) = match words {
        [combination, timeslot, form] => (combination, timeslot, form, None),
        [combination, timeslot, form, name] => (combination, timeslot, form, Some(name)),
        _ => return Err("expected COMBINATION TIMESLOT trx|int8|bits|grgsm [BURSTS]".into()),
    };
    let named = COMBINATIONS.into_iter().find(|known| known.word() == combination.as_str());
    let known = COMBINATIONS.map(Combination::word).join(", ");
    let combination = named.ok_or(format!("COMBINATION is {combination:?}; expected {known}"))?;
    let numbered = timeslot.parse().ok().filter(|&number: &u8| number < 8);
    let timeslot = numbered.ok_or(format!("TIMESLOT is {timeslot:?}; expected 0 to 7"))?;
    let (_, form) = *FORMS.iter().find(|(known, _)| known == form).ok_or(format!("the form is {form:?}; expected trx, int8, bits, grgsm"))?;
    let file: Box<dyn Read> = match name {
        Some(name) => Box::new(io::BufReader::new(std::fs::File::open(name).map_err(|why| format!("{name}: {why}"))?)),
        None => Box::new(io::stdin()),
    };
    let mut slot = Slot::new(combination, Direction::Downlink, timeslot, 16, 4)?;
    slot.set_limit(20)?;
    receive(Receiver { slot, late: 0 }, timeslot, form, file, io::stdout())
}

fn main() {
    let words: Vec<String> = std::env::args().skip(1).collect();
    if let Err(why) = run(&words) {
        // the reader of the capture may end first
        if why.downcast_ref::<io::Error>().map(io::Error::kind) != Some(io::ErrorKind::BrokenPipe) {
            eprintln!("receiver: {why}");
            std::process::exit(1);
        }
    }
}
