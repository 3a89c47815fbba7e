//! What a call of an endpoint brings: blocks to send, and notices.

use crate::words::words;
use crate::Refused;
use core::fmt;

/// Why a link was closed.
#[derive(Clone, Copy, Debug, PartialEq, Eq, Hash)]
pub enum Reason {
    /// The network answered another mobile: contention is lost.
    Contention,
    /// N200 retransmissions without an answer, or the peer has no link.
    Failed,
    /// The peer refused to open the link.
    Refused,
    /// One of the endpoints closed the link.
    Released,
}

words!(Reason: Contention "contention", Failed "failed", Refused "refused", Released "released");

/// An event that an endpoint reports.
#[derive(Clone, Copy, Debug, PartialEq, Eq, Hash)]
pub enum Notice<'a> {
    /// The link is open; the information of the SABM.
    Opened(&'a [u8]),
    /// A message was received completely.
    Got(&'a [u8]),
    /// A message was received in a UI frame.
    Unit(&'a [u8]),
    /// A message is completely acknowledged; its number, 1 for the first message sent.
    Acked(u64),
    /// A received message was too long and is discarded.
    Oversize,
    /// The link is closed; why.
    Closed(Reason),
}

impl Notice<'_> {
    /// The word for the kind of notice, as the program writes it.
    #[must_use]
    pub const fn word(&self) -> &'static str {
        match self {
            Notice::Opened(_) => "opened",
            Notice::Got(_) => "got",
            Notice::Unit(_) => "unit",
            Notice::Acked(_) => "acked",
            Notice::Oversize => "oversize",
            Notice::Closed(_) => "closed",
        }
    }
}

#[repr(C)]
#[derive(Clone, Copy, PartialEq, Eq, Hash)]
pub(crate) struct Message {
    pub(crate) count: u8,
    pub(crate) octets: [u8; 255],
}

pub(crate) const NO_MESSAGE: Message = Message { count: 0, octets: [0; 255] };

impl Message {
    // Longer messages are cut at 255 octets, which the library refuses as too long.
    pub(crate) fn new(octets: &[u8]) -> Message {
        let count = octets.len().min(255);
        let mut message = NO_MESSAGE;
        message.count = count as u8;
        message.octets[..count].copy_from_slice(&octets[..count]);
        message
    }

    pub(crate) fn octets(&self) -> &[u8] {
        &self.octets[..usize::from(self.count)]
    }
}

#[repr(C)]
#[derive(Clone, Copy, PartialEq, Eq, Hash)]
pub(crate) struct PlainNotice {
    number: u64,
    kind: u8,
    reason: u8,
    message: Message,
}

pub(crate) const NO_NOTICE: PlainNotice = PlainNotice { number: 0, kind: 0, reason: 0, message: NO_MESSAGE };

/// The result of a call: blocks to send, and notices. A block that is not sent is lost, which costs T200.
#[must_use]
#[repr(C)]
#[derive(Clone, Copy, PartialEq, Eq, Hash)]
pub struct Effects {
    notices: [PlainNotice; 3],
    notice_count: u8,
    frame_count: u8,
    frames: [[u8; 23]; 2],
}

/// As the lists of [`frames`](Effects::frames) and [`notices`](Effects::notices).
impl fmt::Debug for Effects {
    fn fmt(&self, f: &mut fmt::Formatter<'_>) -> fmt::Result {
        f.debug_struct("Effects").field("frames", &self.frames()).field("notices", &Listed(|| self.notices())).finish()
    }
}

/// What an iterator yields, as a list.
pub(crate) struct Listed<F>(pub(crate) F);

impl<F: Fn() -> I, I: Iterator> fmt::Debug for Listed<F>
where
    I::Item: fmt::Debug,
{
    fn fmt(&self, f: &mut fmt::Formatter<'_>) -> fmt::Result {
        f.debug_list().entries((self.0)()).finish()
    }
}

impl Effects {
    /// At most two blocks, in the order in which to send them.
    #[must_use]
    pub fn frames(&self) -> &[[u8; 23]] {
        &self.frames[..usize::from(self.frame_count)]
    }

    /// At most three notices, in order.
    pub fn notices(&self) -> impl ExactSizeIterator<Item = Notice<'_>> + DoubleEndedIterator {
        self.notices[..usize::from(self.notice_count)].iter().map(notice_of)
    }
}

pub(crate) fn notice_of(notice: &PlainNotice) -> Notice<'_> {
    match notice.kind {
        1 => Notice::Opened(notice.message.octets()),
        2 => Notice::Got(notice.message.octets()),
        3 => Notice::Unit(notice.message.octets()),
        4 => Notice::Acked(notice.number),
        5 => Notice::Oversize,
        _ => Notice::Closed(match notice.reason {
            0 => Reason::Contention,
            1 => Reason::Failed,
            2 => Reason::Refused,
            _ => Reason::Released,
        }),
    }
}

pub(crate) const NO_EFFECTS: Effects = Effects { notices: [NO_NOTICE; 3], notice_count: 0, frame_count: 0, frames: [[0; 23]; 2] };

pub(crate) fn told(call: impl FnOnce(&mut Effects) -> u8) -> Result<Effects, Refused> {
    let mut effects = NO_EFFECTS;
    match Refused::of(call(&mut effects)) {
        None => Ok(effects),
        Some(reason) => Err(reason),
    }
}
