//! LAPDm frames, formats A and B (3GPP TS 44.006).

use crate::words::words;
use crate::{Invalid, NoFrame};

/// The channel, which decides where the frame starts in its block.
#[derive(Clone, Copy, Debug, PartialEq, Eq, Hash)]
pub enum Channel {
    /// The frame starts with the block.
    Sdcch,
    /// Two layer 1 octets come first.
    Sacch,
}

words!(Channel: Sdcch "sdcch", Sacch "sacch");

/// A frame that borrows its information.
#[derive(Clone, Copy, Debug, PartialEq, Eq, Hash)]
pub struct Frame<'a> {
    /// The service access point, 0 to 7.
    pub sapi: u8,
    /// The command/response bit.
    pub cr: bool,
    /// The kind of the frame, with its fields.
    pub body: Body<'a>,
}

/// The kind of a frame.
#[derive(Clone, Copy, Debug, PartialEq, Eq, Hash)]
pub enum Kind {
    /// Information.
    I,
    /// Receive ready.
    Rr,
    /// Receive not ready.
    Rnr,
    /// Reject.
    Rej,
    /// Set asynchronous balanced mode.
    Sabm,
    /// Disconnected mode.
    Dm,
    /// Unnumbered information.
    Ui,
    /// Disconnect.
    Disc,
    /// Unnumbered acknowledgement.
    Ua,
}

words!(Kind: I "i", Rr "rr", Rnr "rnr", Rej "rej", Sabm "sabm", Dm "dm", Ui "ui", Disc "disc", Ua "ua");

/// The fields that depend on the kind: `ns` and `nr` are N(S) and N(R), 0 to 7; `p`, `f` and `pf` are the poll and final bit; `more` is M;
/// `info` is the information, at most 20 octets on SDCCH and 18 on SACCH.
#[derive(Clone, Copy, Debug, PartialEq, Eq, Hash)]
#[allow(missing_docs)] // the fields are explained above
pub enum Body<'a> {
    /// Information: a segment of a message, at least one octet.
    I { ns: u8, nr: u8, p: bool, more: bool, info: &'a [u8] },
    /// Receive ready.
    Rr { nr: u8, pf: bool },
    /// Receive not ready.
    Rnr { nr: u8, pf: bool },
    /// Reject.
    Rej { nr: u8, pf: bool },
    /// Set asynchronous balanced mode: opens a link.
    Sabm { p: bool, info: &'a [u8] },
    /// Disconnected mode: there is no link.
    Dm { f: bool },
    /// Unnumbered information, outside the link; the fill frame if it has none.
    Ui { p: bool, info: &'a [u8] },
    /// Disconnect: releases the link.
    Disc { p: bool },
    /// Unnumbered acknowledgement, of a SABM or DISC.
    Ua { f: bool, info: &'a [u8] },
}

impl Body<'_> {
    /// The kind of the frame.
    #[must_use]
    pub fn kind(&self) -> Kind {
        match self {
            Body::I { .. } => Kind::I,
            Body::Rr { .. } => Kind::Rr,
            Body::Rnr { .. } => Kind::Rnr,
            Body::Rej { .. } => Kind::Rej,
            Body::Sabm { .. } => Kind::Sabm,
            Body::Dm { .. } => Kind::Dm,
            Body::Ui { .. } => Kind::Ui,
            Body::Disc { .. } => Kind::Disc,
            Body::Ua { .. } => Kind::Ua,
        }
    }

    /// Whether the frame awaits an answer, so that T200 starts when it goes on the air.
    #[must_use]
    pub fn awaits_answer(&self) -> bool {
        matches!(self, Body::I { .. } | Body::Sabm { .. } | Body::Disc { .. })
    }
}

/// A decoded frame that owns its information.
#[repr(C)]
#[derive(Clone, Copy, Debug, Default, PartialEq, Eq, Hash)]
pub struct ReadFrame {
    kind: u8,
    sapi: u8,
    cr: u8,
    pf: u8,
    ns: u8,
    nr: u8,
    more: u8,
    count: u8,
    info: [u8; 20],
}

impl ReadFrame {
    /// The frame, which borrows from this one.
    #[must_use]
    pub fn view(&self) -> Frame<'_> {
        let (nr, pf, info) = (self.nr, self.pf != 0, &self.info[..usize::from(self.count)]);
        let body = match self.kind {
            0 => Body::I { ns: self.ns, nr, p: pf, more: self.more != 0, info },
            1 => Body::Rr { nr, pf },
            2 => Body::Rnr { nr, pf },
            3 => Body::Rej { nr, pf },
            4 => Body::Sabm { p: pf, info },
            5 => Body::Dm { f: pf },
            6 => Body::Ui { p: pf, info },
            7 => Body::Disc { p: pf },
            _ => Body::Ua { f: pf, info },
        };
        Frame { sapi: self.sapi, cr: self.cr != 0, body }
    }
}

extern "C" {
    fn um_read_frame(octets: &[u8; 23], channel: u8, frame: &mut ReadFrame) -> u8;
    fn um_write_frame(frame: &ReadFrame, channel: u8, octets: &mut [u8; 23]) -> bool;
    fn um_read_b4(octets: &[u8; 23], info: &mut [u8; 19]) -> bool;
    fn um_write_b4(layer1: &[u8; 2], info: &[u8; 19], octets: &mut [u8; 23]);
}

// SAFETY, for all calls below: as in blocks.rs.

/// Decodes the frame in a block. On SACCH the two layer 1 octets at the start are ignored.
///
/// # Errors
///
/// [`NoFrame`] says why the octets are not a frame.
pub fn read_frame(octets: &[u8; 23], channel: Channel) -> Result<ReadFrame, NoFrame> {
    let mut frame = ReadFrame::default();
    match unsafe { um_read_frame(octets, channel as u8, &mut frame) } {
        0 => Ok(frame),
        1 => Err(NoFrame::Lpd),
        2 => Err(NoFrame::Ea),
        3 => Err(NoFrame::Control),
        4 => Err(NoFrame::El),
        5 => Err(NoFrame::Length),
        6 => Err(NoFrame::Empty),
        _ => Err(NoFrame::More),
    }
}

/// The canonical block of a frame: layer 1 octets 00, fill 2b.
///
/// # Errors
///
/// [`Invalid::Frame`] if the fields describe no frame that fits the channel.
pub fn write_frame(frame: &Frame<'_>, channel: Channel) -> Result<[u8; 23], Invalid> {
    let mut fields = ReadFrame { sapi: frame.sapi, cr: u8::from(frame.cr), ..ReadFrame::default() };
    let (kind, pf, info): (u8, bool, &[u8]) = match frame.body {
        Body::I { ns, nr, p, more, info } => {
            (fields.ns, fields.nr, fields.more) = (ns, nr, u8::from(more));
            (0, p, info)
        }
        Body::Rr { nr, pf } => {
            fields.nr = nr;
            (1, pf, &[])
        }
        Body::Rnr { nr, pf } => {
            fields.nr = nr;
            (2, pf, &[])
        }
        Body::Rej { nr, pf } => {
            fields.nr = nr;
            (3, pf, &[])
        }
        Body::Sabm { p, info } => (4, p, info),
        Body::Dm { f } => (5, f, &[]),
        Body::Ui { p, info } => (6, p, info),
        Body::Disc { p } => (7, p, &[]),
        Body::Ua { f, info } => (8, f, info),
    };
    fields.info.get_mut(..info.len()).ok_or(Invalid::Frame)?.copy_from_slice(info);
    (fields.kind, fields.pf, fields.count) = (kind, u8::from(pf), info.len() as u8);
    let mut octets = [0; 23];
    unsafe { um_write_frame(&fields, channel as u8, &mut octets) }.then_some(octets).ok_or(Invalid::Frame)
}

/// The 19 octets of a UI frame of format B4, such as system information, in a block of SACCH from a network. `None`: the address or the
/// control octet is of another frame.
#[must_use]
pub fn read_b4(octets: &[u8; 23]) -> Option<[u8; 19]> {
    let mut info = [0; 19];
    unsafe { um_read_b4(octets, &mut info) }.then_some(info)
}

/// The block of SACCH from a network with these layer 1 octets and a UI frame of format B4 with 19 octets. System information begins with
/// its L2 pseudo length.
#[must_use]
pub fn write_b4(layer1: [u8; 2], info: &[u8; 19]) -> [u8; 23] {
    let mut octets = [0; 23];
    unsafe { um_write_b4(&layer1, info, &mut octets) };
    octets
}
