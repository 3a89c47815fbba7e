//! 64 links over a channel that loses one block in ten: each mobile opens its link, sends a message, and closes when it is acknowledged.
//!
//!     cargo run --manifest-path examples/rust/Cargo.toml --bin links
use std::error::Error;
use um::{Channel, DataLink, Notice, Reason, Refused, Report, Role};
use um_examples::Air;

const LINKS: usize = 64;
const SIDES: usize = 2 * LINKS;
const SLOTS: usize = 1000;

/// What layer 3 does with a report. Counts messages that arrived and sides that closed.
fn handle(side: &mut DataLink, report: &Report, got: &mut usize, closed: &mut usize) -> Result<(), Refused> {
    for (sapi, notice) in report.notices() {
        match notice {
            Notice::Opened(_) if side.role() == Role::Mobile => side.send(sapi, &[0; 100])?,
            Notice::Acked(_) => side.close(sapi)?,
            Notice::Got(message) => *got += usize::from(message == [0; 100]),
            Notice::Closed(reason) => *closed += usize::from(reason == Reason::Released),
            _ => {}
        }
    }
    Ok(())
}

fn main() -> Result<(), Box<dyn Error>> {
    let (mut air, mut sides, mut arriving) = (Air::default(), Vec::new(), [None; SIDES]);
    let (mut slot, mut got, mut closed) = (0, 0, 0);
    for _ in 0..LINKS {
        let mut mobile = DataLink::new(Role::Mobile, Channel::Sdcch, 4, 6)?;
        mobile.open(&[0x05, 0x24])?;
        sides.extend([mobile, DataLink::new(Role::Network, Channel::Sdcch, 4, 6)?]);
    }
    while closed < SIDES && slot < SLOTS {
        slot += 1;
        for (side, block) in sides.iter_mut().zip(&arriving) {
            if let Some(block) = block {
                let report = side.take(block)?;
                handle(side, &report, &mut got, &mut closed)?;
            }
        }
        for (at, side) in sides.iter_mut().enumerate() {
            let sent = side.next([0, 0]);
            handle(side, &sent.report, &mut got, &mut closed)?;
            arriving[at ^ 1] = (air.random() % 10 != 0).then_some(sent.block);
        }
    }
    println!("{LINKS} links, one block in ten lost: after {slot} slots {got} messages have arrived and {closed} sides are closed");
    if closed < SIDES { Err("some sides are not closed".into()) } else { Ok(()) }
}
