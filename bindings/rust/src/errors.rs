//! The reasons for which calls refuse. Each is an `Error` of core (of std before Rust 1.81).

use crate::words::words;
use core::fmt;

// core has it from Rust 1.81 on
#[cfg(um_core_error)]
use core::error::Error;
#[cfg(not(um_core_error))]
extern crate std;
#[cfg(not(um_core_error))]
use std::error::Error;

/// The invalid argument of a call.
#[derive(Clone, Copy, Debug, PartialEq, Eq, Hash)]
#[non_exhaustive]
pub enum Invalid {
    /// A training sequence above 7.
    TrainingSequence,
    /// A soft bit of -128.
    SoftValue,
    /// All values are 0 or 1, and one is 1: hard bits in place of soft bits.
    HardBits,
    /// The number of words to try is 0 or above 64.
    Words,
    /// A limit of wrong training bits above 78.
    Limit,
    /// An octet that should be a bit is neither 0 nor 1.
    Bit,
    /// The fields describe no frame that fits the channel.
    Frame,
    /// A number that is neither of the SAPIs 0 and 3.
    Sapi,
    /// A ratio that is not a number, or a scale that is 0 or not finite.
    Ratio,
    /// The number of bursts to erase is above 4.
    Erasures,
    /// A frame number that does not exist.
    FrameNumber,
    /// T1 is above 2047, T2 above 25 or T3 above 50.
    Time,
    /// A base station identity code above 63.
    Bsic,
    /// The frame has no synchronisation burst.
    NoSch,
    /// A time slot above 7.
    TimeSlot,
    /// The combination has no such channel in this direction.
    Channel,
    /// A T200 of 0 slots.
    T200,
    /// This frame was taken last.
    Doubled,
    /// This frame is before the one taken last.
    Late,
}

impl fmt::Display for Invalid {
    fn fmt(&self, f: &mut fmt::Formatter<'_>) -> fmt::Result {
        f.write_str(match self {
            Invalid::TrainingSequence => "a training sequence above 7; expected 0 to 7",
            Invalid::SoftValue => "a soft bit of -128; expected -127 to 127",
            Invalid::HardBits => "each value is 0 or 1, so these are hard bits; soft_from_bits makes soft bits of them",
            Invalid::Words => "an invalid number of words; expected 1 to 64",
            Invalid::Limit => "an invalid limit of wrong training bits; expected 0 to 78",
            Invalid::Bit => "an octet above 1; expected bits, 0 or 1",
            Invalid::Frame => "the fields describe no LAPDm frame that fits the channel",
            Invalid::Sapi => "an invalid SAPI; expected 0 or 3",
            Invalid::Erasures => "an invalid number of erasures; expected 0 to 4",
            Invalid::FrameNumber => "an invalid frame number; expected 0 to 2715647",
            Invalid::Time => "an invalid time; expected T1 up to 2047, T2 up to 25 and T3 up to 50",
            Invalid::Bsic => "an invalid base station identity code; expected 0 to 63",
            Invalid::NoSch => "a frame without a synchronisation burst; expected a T3 of 1, 11, 21, 31 or 41",
            Invalid::TimeSlot => "an invalid time slot; expected 0 to 7",
            Invalid::Channel => "the combination has no such channel in this direction",
            Invalid::T200 => "a T200 of 0 slots; expected 1 to 255",
            Invalid::Doubled => "this frame was taken last; expected a later one",
            Invalid::Late => "this frame is before the one taken last; expected a later one",
            Invalid::Ratio => "a ratio that is not a number, or a scale of 0 or without end",
        })
    }
}

impl Error for Invalid {}

/// Why octets are not a frame.
#[derive(Clone, Copy, Debug, PartialEq, Eq, Hash)]
pub enum NoFrame {
    /// Another link protocol.
    Lpd,
    /// The address field continues: EA is 0.
    Ea,
    /// An undefined control octet.
    Control,
    /// The length field continues: EL is 0.
    El,
    /// More information than fits, or than the kind carries.
    Length,
    /// An I frame without information.
    Empty,
    /// M is set in a frame other than I.
    More,
}

words!(NoFrame: Lpd "lpd", Ea "ea", Control "control", El "el", Length "length", Empty "empty", More "more");

impl fmt::Display for NoFrame {
    fn fmt(&self, f: &mut fmt::Formatter<'_>) -> fmt::Result {
        f.write_str(match self {
            NoFrame::Lpd => "not an LAPDm frame: another link protocol",
            NoFrame::Ea => "not an LAPDm frame: the address field continues (EA is 0)",
            NoFrame::Control => "not an LAPDm frame: undefined control octet",
            NoFrame::El => "not an LAPDm frame: the length field continues (EL is 0)",
            NoFrame::Length => "not an LAPDm frame: more information than fits, or than the kind carries",
            NoFrame::Empty => "not an LAPDm frame: an I frame without information",
            NoFrame::More => "not an LAPDm frame: M is set in a frame other than I",
        })
    }
}

impl Error for NoFrame {}

/// Why an endpoint refuses a call. Its state is then unchanged.
#[derive(Clone, Copy, Debug, PartialEq, Eq, Hash)]
pub enum Refused {
    /// The link was opened already; for [`DataLink::establish`](crate::DataLink::establish): it is being opened or released.
    NotIdle,
    /// The link is not open.
    NotOpen,
    /// No frame awaits an answer.
    NotRunning,
    /// The message is empty.
    Empty,
    /// The message is too long.
    TooLong,
    /// Eight messages are not completely acknowledged yet.
    Full,
    /// The mobile opens the link of SAPI 0 with `open`, unless it is of normal establishment; either end opens the link of SAPI 3 with
    /// `open_bare`, and either side of a data link both with `establish`.
    NoCall,
    /// The octets are not a frame: [`crate::read_frame`] returns the reason.
    NoFrame,
}

words!(Refused: NotIdle "notidle", NotOpen "notopen", NotRunning "notrunning", Empty "empty", TooLong "toolong", Full "full",
    NoCall "nocall", NoFrame "noframe");

impl Refused {
    /// The reason of an answer of the library, if it is a refusal.
    pub(crate) fn of(answer: u8) -> Option<Refused> {
        Some(match answer {
            0 => return None,
            1 => Refused::NotIdle,
            2 => Refused::NotOpen,
            3 => Refused::NotRunning,
            4 => Refused::Empty,
            5 => Refused::TooLong,
            6 => Refused::Full,
            8 => Refused::NoCall,
            9 => Refused::NoFrame,
            _ => unreachable!("the state is written by the library alone, so it is that of an end"),
        })
    }
}

impl fmt::Display for Refused {
    fn fmt(&self, f: &mut fmt::Formatter<'_>) -> fmt::Result {
        f.write_str(match self {
            Refused::NotIdle => "the link was opened already, or is being opened or released",
            Refused::NotOpen => "the link is not open",
            Refused::NotRunning => "no frame awaits an answer",
            Refused::Empty => "the message is empty; expected at least one octet",
            Refused::TooLong => "the message is too long; send takes at most 251 octets, open and unit 20 (18 on SACCH)",
            Refused::Full => "eight messages are not completely acknowledged yet",
            Refused::NoCall => {
                "the mobile opens the link of SAPI 0 with open, unless it is of normal establishment; either end opens SAPI 3 with \
                 open_bare, and either side of a data link both with establish"
            }
            Refused::NoFrame => "the octets are not an LAPDm frame",
        })
    }
}

impl Error for Refused {}

/// Why octets are not a saved state.
#[derive(Clone, Copy, Debug, PartialEq, Eq, Hash)]
pub enum NotSaved {
    /// The number of octets.
    Length {
        /// The number of octets that were passed.
        found: usize,
        /// The number of octets of the saved form.
        expected: usize,
    },
    /// The octets begin with another head: they are something else, or of another version.
    Head {
        /// The first four octets.
        found: [u8; 4],
        /// The head of the saved form.
        expected: &'static [u8; 4],
    },
    /// No endpoint has this state, or the endpoints are no side.
    NoEnd,
    /// No receiver of a time slot has this state.
    NoSlot,
    /// No receiver, or no sender, of a traffic channel has this state.
    NoTraffic,
}

impl fmt::Display for NotSaved {
    fn fmt(&self, f: &mut fmt::Formatter<'_>) -> fmt::Result {
        match self {
            NotSaved::Length { found, expected } => write!(f, "{found} octets; expected {expected}"),
            NotSaved::Head { found, expected } => {
                write!(f, "the octets begin with \"{}\"; expected \"{}\"", found.escape_ascii(), expected.escape_ascii())
            }
            NotSaved::NoEnd | NotSaved::NoSlot | NotSaved::NoTraffic => f.write_str("the state is not valid"),
        }
    }
}

impl Error for NotSaved {}
