//! A mobile and a network over a noisy path that loses blocks: each block is sent as four bursts, with noise, and decoded again. The
//! mobile opens the link, both send messages, and the mobile releases the link.
//!
//! Time advances in slots of 235 ms, in which each endpoint sends one SDCCH block. T200 counts from the time at which a block that awaits
//! an answer goes on the air, and exceeds the round trip with the blocks queued before it.
//!
//!     cargo run --manifest-path examples/rust/Cargo.toml --bin session
use std::{collections::VecDeque, error::Error};
use um::{Channel, Effects, End, Notice, Reason, Sapi};
use um_examples::Air;

const SLOT: u32 = 235;
const T200: u32 = 4;
const SLOTS: u32 = 200;

struct Side {
    name: &'static str,
    end: End,
    queue: VecDeque<[u8; 23]>,
    now: u32,
    /// Slots until T200 expires.
    timer: Option<u32>,
    opened: u32,
    got: u32,
    acked: u32,
    closed: u32,
}

impl Side {
    fn new(name: &'static str, end: End) -> Side {
        Side { name, end, queue: VecDeque::new(), now: 0, timer: None, opened: 0, got: 0, acked: 0, closed: 0 }
    }

    fn say(&self, what: &str) {
        println!("{:5} ms  {:7} {what}", self.now, self.name);
    }

    fn apply(&mut self, effects: &Effects) {
        self.queue.extend(effects.frames());
        for notice in effects.notices() {
            match notice {
                Notice::Opened(_) => {
                    self.opened += 1;
                    self.say("is open");
                }
                Notice::Got(message) => {
                    self.got += 1;
                    self.say(&format!("got a message of {} octets", message.len()));
                }
                Notice::Acked(number) => {
                    self.acked += 1;
                    self.say(&format!("has message {number} acknowledged"));
                }
                Notice::Closed(reason) => {
                    self.closed += 1;
                    self.say(if reason == Reason::Released { "is closed" } else { "has failed" });
                }
                Notice::Unit(_) | Notice::Oversize => {}
            }
        }
    }

    /// Runs one slot of an endpoint: T200 may expire, and the first queued block goes on the air.
    fn slot(&mut self, air: &mut Air, other: &mut Side, now: u32) -> Result<(), Box<dyn Error>> {
        (self.now, other.now) = (now, now);
        self.timer = self.timer.map(|left| left - 1);
        if self.timer == Some(0) {
            self.timer = None;
            // refused if no frame awaits an answer any more
            if let Ok(effects) = self.end.timer() {
                self.say("T200 expires");
                self.apply(&effects);
            }
        }
        let sent = match self.queue.pop_front() {
            Some(sent) => sent,
            None => return Ok(()),
        };
        let octets = received(air, &sent)?;
        let read = um::read_frame(&sent, Channel::Sdcch)?;
        let body = read.view().body;
        self.say(&format!("sends {}{}", body.kind().word(), if octets.is_some() { "" } else { ", which is lost" }));
        if body.awaits_answer() {
            self.timer = Some(T200);
        }
        if let Some(octets) = octets {
            let effects = other.end.take(&octets)?;
            other.apply(&effects);
        }
        Ok(())
    }
}

/// Sends a block over the noisy path; one in four fades. `None` if it is lost.
fn received(air: &mut Air, sent: &[u8; 23]) -> Result<Option<[u8; 23]>, um::Invalid> {
    let strength = if air.random() >> 30 == 0 { 250 } else { 40 };
    let soft = air.soften(&um::send_block(sent, 7)?, strength);
    Ok(um::receive_block(&soft)?.accepted().copied())
}

fn message_of(count: u8) -> Vec<u8> {
    (0..count).collect()
}

fn main() -> Result<(), Box<dyn Error>> {
    let mut air = Air::default();
    let mut mobile = Side::new("mobile", End::mobile(Sapi::Signalling, Channel::Sdcch));
    let mut network = Side::new("network", End::network(Sapi::Signalling, Channel::Sdcch));
    let opening = mobile.end.open(&message_of(9))?;
    mobile.apply(&opening);
    for at in 0..SLOTS {
        if mobile.closed > 0 && network.closed > 0 {
            break;
        }
        let (mobile_was, network_was) = (mobile.opened, network.opened);
        let was_done = mobile.acked == 2 && network.acked == 1;
        mobile.slot(&mut air, &mut network, at * SLOT)?;
        network.slot(&mut air, &mut mobile, at * SLOT)?;
        if mobile.opened > mobile_was {
            for count in [5, 60] {
                let effects = mobile.end.send(&message_of(count))?;
                mobile.apply(&effects);
            }
        }
        if network.opened > network_was {
            let effects = network.end.send(&message_of(30))?;
            network.apply(&effects);
        }
        if !was_done && mobile.acked == 2 && network.acked == 1 {
            let effects = mobile.end.close()?;
            mobile.apply(&effects);
        }
    }
    if (mobile.closed, network.closed, mobile.got, network.got) != (1, 1, 1, 2) {
        return Err("something is missing".into());
    }
    println!("each message arrived exactly once");
    Ok(())
}
