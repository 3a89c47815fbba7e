//! Frame numbers, synchronisation and access bursts, and the channels of a time slot (3GPP TS 45.002, 3.3.2, 4.3.3, 6.4 and 7;
//! TS 44.018, 9.1.30).

use crate::words::words;
use crate::{Channel, Invalid};

/// The frames of a hyperframe: frame numbers are 0 to `FRAMES - 1`.
pub const FRAMES: u32 = 2_715_648;

/// A frame number in three counters.
#[repr(C)]
#[derive(Clone, Copy, Debug, Default, PartialEq, Eq, Hash)]
pub struct Time {
    /// The frame number / 1326: 0 to 2047.
    pub t1: u16,
    /// The frame number % 26.
    pub t2: u8,
    /// The frame number % 51.
    pub t3: u8,
}

/// What a synchronisation burst says.
#[repr(C)]
#[derive(Clone, Copy, Debug, Default, PartialEq, Eq, Hash)]
pub struct Sch {
    /// The frame number; its T3 is 1, 11, 21, 31 or 41.
    pub frame: u32,
    /// The base station identity code, 0 to 63: 8 * ncc + bcc.
    pub bsic: u8,
    /// The network colour code, 0 to 7.
    pub ncc: u8,
    /// The base station colour code, 0 to 7: the training sequence of BCCH and CCCH.
    pub bcc: u8,
}

/// The channels of a time slot.
#[derive(Clone, Copy, Debug, PartialEq, Eq, Hash)]
pub enum Combination {
    /// FCCH, SCH, BCCH, CCCH; uplink RACH.
    BcchCcch,
    /// The same with SDCCH/4 and its SACCH.
    BcchCcchSdcch4,
    /// SDCCH/8 and its SACCH.
    Sdcch8,
    /// The SACCH of a full rate traffic channel; all other frames carry traffic or are idle.
    TchF,
    /// The SACCH of the two half rate traffic channels of a time slot, subchannels 0 and 1; all other frames carry traffic.
    TchH,
}

words!(Combination: BcchCcch "bcch_ccch", BcchCcchSdcch4 "bcch_ccch_sdcch4", Sdcch8 "sdcch8", TchF "tch_f", TchH "tch_h");

/// From the network to the mobile, or back.
#[derive(Clone, Copy, Debug, PartialEq, Eq, Hash)]
pub enum Direction {
    /// From the network.
    Downlink,
    /// From the mobile.
    Uplink,
}

words!(Direction: Downlink "downlink", Uplink "uplink");

/// What a frame of a time slot carries.
#[derive(Clone, Copy, Debug, PartialEq, Eq, Hash)]
pub enum Carried {
    /// A stand-alone dedicated control channel.
    Sdcch,
    /// A slow associated control channel.
    Sacch,
    /// The broadcast control channel.
    Bcch,
    /// The common control channel: paging and access grants.
    Ccch,
    /// A frequency correction burst.
    Fcch,
    /// A synchronisation burst.
    Sch,
    /// An access burst.
    Rach,
    /// A fast associated control channel, in stolen halves of traffic bursts.
    Facch,
}

words!(Carried: Sdcch "sdcch", Sacch "sacch", Bcch "bcch", Ccch "ccch", Fcch "fcch", Sch "sch", Rach "rach", Facch "facch");

impl Carried {
    /// The dedicated channel, if it is one: its blocks carry LAPDm frames of formats A and B.
    #[must_use]
    pub fn dedicated(self) -> Option<Channel> {
        match self {
            Carried::Sdcch => Some(Channel::Sdcch),
            Carried::Sacch => Some(Channel::Sacch),
            _ => None,
        }
    }

    pub(crate) fn of(number: u8) -> Carried {
        match number {
            0 => Carried::Sdcch,
            1 => Carried::Sacch,
            2 => Carried::Bcch,
            3 => Carried::Ccch,
            4 => Carried::Fcch,
            5 => Carried::Sch,
            6 => Carried::Rach,
            _ => Carried::Facch,
        }
    }
}

/// The place of a frame in its channel.
#[derive(Clone, Copy, Debug, PartialEq, Eq, Hash)]
pub struct Place {
    /// The frame number of the block's first burst; for FCCH, SCH and RACH that of the burst.
    pub first: u32,
    /// The channel.
    pub channel: Carried,
    /// The number of the SDCCH or SACCH; for CCCH the number of the block in the multiframe, 0 to 8; else 0.
    pub subchannel: u8,
    /// Which burst of the block, 0 to 3; for FCCH, SCH and RACH 0.
    pub burst: u8,
}

#[repr(C)]
#[derive(Default)]
struct PlainPlace {
    first: u32,
    channel: u8,
    subchannel: u8,
    burst: u8,
}

extern "C" {
    fn um_time_of_frame(frame: u32, time: &mut Time) -> bool;
    fn um_frame_of_time(time: &Time, frame: &mut u32) -> bool;
    fn um_read_sch(info: &[u8; 25], sch: &mut Sch) -> bool;
    fn um_write_sch(bsic: u8, frame: u32, info: &mut [u8; 25]) -> bool;
    fn um_write_ra(ra: u8, info: &mut [u8; 8]);
    fn um_read_ra(info: &[u8; 8], ra: &mut u8) -> bool;
    fn um_write_bsic(bsic: u8, bits: &mut [u8; 6]) -> bool;
    fn um_read_bsic(bits: &[u8; 6], bsic: &mut u8) -> bool;
    fn um_place_frame(combination: u8, direction: u8, timeslot: u8, frame: u32, place: &mut PlainPlace) -> u8;
    fn um_next_block(
        combination: u8, direction: u8, timeslot: u8, channel: u8, subchannel: u8, frame: u32, first: &mut u32,
    ) -> bool;
}

// SAFETY, for each call below: as in blocks.rs.

/// Splits a frame number into T1, T2 and T3.
///
/// # Errors
///
/// [`Invalid::FrameNumber`] if there is no such frame number.
pub fn time_of_frame(frame: u32) -> Result<Time, Invalid> {
    let mut time = Time::default();
    unsafe { um_time_of_frame(frame, &mut time) }.then_some(time).ok_or(Invalid::FrameNumber)
}

/// The frame number with this T1, T2 and T3.
///
/// # Errors
///
/// [`Invalid::Time`] if T1 is above 2047, T2 above 25 or T3 above 50.
pub fn frame_of_time(time: &Time) -> Result<u32, Invalid> {
    let mut frame = 0;
    unsafe { um_frame_of_time(time, &mut frame) }.then_some(frame).ok_or(Invalid::Time)
}

/// Reads the 25 data bits of a synchronisation burst. `None`: no frame number has these bits, as T2 is above 25 or T3' above 4.
///
/// # Errors
///
/// [`Invalid::Bit`] if an octet is neither 0 nor 1.
pub fn read_sch(info: &[u8; 25]) -> Result<Option<Sch>, Invalid> {
    are_bits(info)?;
    let mut sch = Sch::default();
    Ok(unsafe { um_read_sch(info, &mut sch) }.then_some(sch))
}

/// Writes the 25 data bits for [`send_sync`](crate::send_sync).
///
/// # Errors
///
/// [`Invalid::Bsic`] if `bsic` is above 63, [`Invalid::FrameNumber`] if there is no such frame number, [`Invalid::NoSch`] if it has no
/// synchronisation burst.
pub fn write_sch(bsic: u8, frame: u32) -> Result<[u8; 25], Invalid> {
    if bsic > 63 {
        return Err(Invalid::Bsic);
    }
    time_of_frame(frame)?;
    let mut info = [0; 25];
    unsafe { um_write_sch(bsic, frame, &mut info) }.then_some(info).ok_or(Invalid::NoSch)
}

/// RA, the octet of a CHANNEL REQUEST, as the eight data bits of [`send_access`](crate::send_access), least significant bit first.
#[must_use]
pub fn write_ra(ra: u8) -> [u8; 8] {
    let mut info = [0; 8];
    unsafe { um_write_ra(ra, &mut info) };
    info
}

/// Reads RA from the data bits of an access burst.
///
/// # Errors
///
/// [`Invalid::Bit`] if an octet is neither 0 nor 1.
pub fn read_ra(info: &[u8; 8]) -> Result<u8, Invalid> {
    let mut ra = 0;
    unsafe { um_read_ra(info, &mut ra) }.then_some(ra).ok_or(Invalid::Bit)
}

/// A base station identity code as the six bits of [`send_access`](crate::send_access) and [`receive_access`](crate::receive_access), most
/// significant bit first.
///
/// # Errors
///
/// [`Invalid::Bsic`] if `bsic` is above 63.
pub fn write_bsic(bsic: u8) -> Result<[u8; 6], Invalid> {
    let mut bits = [0; 6];
    unsafe { um_write_bsic(bsic, &mut bits) }.then_some(bits).ok_or(Invalid::Bsic)
}

/// Reads a base station identity code from six bits.
///
/// # Errors
///
/// [`Invalid::Bit`] if an octet is neither 0 nor 1.
pub fn read_bsic(bits: &[u8; 6]) -> Result<u8, Invalid> {
    let mut bsic = 0;
    unsafe { um_read_bsic(bits, &mut bsic) }.then_some(bsic).ok_or(Invalid::Bit)
}

/// The channel and the burst that a frame of a time slot carries. `None`: it has none of these channels, so it is idle or carries traffic.
/// The time slot matters only for [`Combination::TchF`].
///
/// # Errors
///
/// [`Invalid::TimeSlot`] if `timeslot` is above 7, [`Invalid::FrameNumber`] if there is no such frame number.
pub fn place_frame(combination: Combination, direction: Direction, timeslot: u8, frame: u32) -> Result<Option<Place>, Invalid> {
    in_time(timeslot, frame)?;
    let mut place = PlainPlace::default();
    let answer = unsafe { um_place_frame(combination as u8, direction as u8, timeslot, frame, &mut place) };
    let PlainPlace { first, channel, subchannel, burst } = place;
    Ok((answer == 0).then_some(Place { first, channel: Carried::of(channel), subchannel, burst }))
}

/// The first frame number, at or after `frame`, of a block (or burst) of this channel and subchannel.
///
/// # Errors
///
/// [`Invalid::Channel`] if the combination has no such channel in this direction; [`Invalid::TimeSlot`], [`Invalid::FrameNumber`].
pub fn next_block(
    combination: Combination, direction: Direction, timeslot: u8, channel: Carried, subchannel: u8, frame: u32,
) -> Result<u32, Invalid> {
    in_time(timeslot, frame)?;
    let mut first = 0;
    unsafe { um_next_block(combination as u8, direction as u8, timeslot, channel as u8, subchannel, frame, &mut first) }
        .then_some(first)
        .ok_or(Invalid::Channel)
}

pub(crate) fn in_time(timeslot: u8, frame: u32) -> Result<(), Invalid> {
    if timeslot > 7 {
        return Err(Invalid::TimeSlot);
    }
    time_of_frame(frame).map(|_| ())
}

fn are_bits(octets: &[u8]) -> Result<(), Invalid> {
    if octets.iter().all(|&octet| octet <= 1) { Ok(()) } else { Err(Invalid::Bit) }
}
