//! Decodes LAPDm frames from blocks of SDCCH and SACCH. On SACCH two layer 1 octets come first: power level and timing advance.
//!
//!     cargo run --manifest-path examples/rust/Cargo.toml --bin frames
use um::{Body, Channel, NoFrame};

/// The first octets of each block; fill octets 2b follow.
const BLOCKS: [(Channel, &str); 7] = [
    (Channel::Sdcch, "013f250524110333198105f4"),                       // a mobile asks for service
    (Channel::Sdcch, "0173250524110333198105f4"),                       // the network's answer
    (Channel::Sdcch, "03200d063501"),                                   // ciphering mode command
    (Channel::Sdcch, "032101"),                                         // its acknowledgement
    (Channel::Sacch, "0803030349061d0102030405060708090a0b0c0d0e0f10"), // system information 5
    (Channel::Sdcch, "0803030349061d0102030405060708090a0b0c0d0e0f10"), // the same, read as SDCCH: the address field seems to continue
    (Channel::Sdcch, "15062100012b"),                                   // paging on CCCH is not an LAPDm frame, but can look like one
];

fn octets_of(digits: &str) -> [u8; 23] {
    let mut octets = [0x2b; 23];
    for (octet, at) in octets.iter_mut().zip((0..digits.len()).step_by(2)) {
        *octet = u8::from_str_radix(&digits[at..at + 2], 16).expect("hexadecimal digits");
    }
    octets
}

fn line_of(octets: &[u8; 23], channel: Channel) -> Result<String, NoFrame> {
    let read = um::read_frame(octets, channel)?;
    let frame = read.view();
    let no_info: &[u8] = &[];
    let kind = frame.body.kind().word();
    let (pf, ns, nr, more, info) = match frame.body {
        Body::I { ns, nr, p, more, info } => (p, ns, nr, more, info),
        Body::Rr { nr, pf } | Body::Rnr { nr, pf } | Body::Rej { nr, pf } => (pf, 0, nr, false, no_info),
        Body::Dm { f } => (f, 0, 0, false, no_info),
        Body::Disc { p } => (p, 0, 0, false, no_info),
        Body::Sabm { p, info } | Body::Ui { p, info } | Body::Ua { f: p, info } => (p, 0, 0, false, info),
    };
    let hex: String = if info.is_empty() { "-".into() } else { info.iter().map(|octet| format!("{octet:02x}")).collect() };
    let (sapi, cr, pf, more) = (frame.sapi, u8::from(frame.cr), u8::from(pf), u8::from(more));
    Ok(format!("{kind} sapi {sapi} cr {cr} pf {pf} ns {ns} nr {nr} more {more} info {hex}"))
}

fn main() {
    for (channel, first) in BLOCKS {
        let octets = octets_of(first);
        let (name, layer1) = match channel {
            Channel::Sdcch => ("SDCCH", String::new()),
            Channel::Sacch => ("SACCH", format!("power level {}, timing advance {}, ", octets[0] & 31, octets[1])),
        };
        match line_of(&octets, channel) {
            Ok(line) => println!("{name}: {layer1}{line}"),
            Err(reason) => println!("{name}: not a frame ({})", reason.word()),
        }
    }
}
