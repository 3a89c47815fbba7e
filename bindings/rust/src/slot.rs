//! A receiver of one time slot, and blocks decoded again without one of their bursts.

use crate::blocks::{not_hard, BlockReport, NO_BLOCK};
use crate::saved::{self, Reader, Writer};
use crate::tdma::{in_time, place_frame, Carried, Combination, Direction, FRAMES};
use crate::{Invalid, NotSaved};
use core::fmt;

/// Which burst was erased, and how well the bursts fit the training sequence.
#[derive(Clone, Copy, Debug, PartialEq, Eq, Hash)]
pub struct Erasure {
    /// The burst that was set to zeros, 0 to 3.
    pub erased: Option<u8>,
    /// Bit errors in the 26 training bits of each burst as received; 26 in one that never came.
    pub wrong_training: [u8; 4],
}

#[repr(C)]
#[derive(Clone, Copy)]
struct PlainErasure {
    erased: u8,
    wrong_training: [u8; 4],
}

const NO_ERASURE: PlainErasure = PlainErasure { erased: 4, wrong_training: [0; 4] };

impl PlainErasure {
    fn view(self) -> Erasure {
        Erasure { erased: (self.erased < 4).then_some(self.erased), wrong_training: self.wrong_training }
    }
}

/// A receiver of one time slot: collects the bursts of each block by their frame numbers, and decodes the block.
///
/// The bursts come in the order of their frame numbers, modulo a hyperframe. Frames may be left out: a burst that never came is zeros. A
/// block is decoded with its fourth burst, or with the first later frame that is of another block; [`miss`](Slot::miss) with such a frame
/// ends the last one. The bursts of FCCH, SCH, RACH, traffic and idle frames are ignored, but such a frame keeps the order.
///
/// ```
/// use um::{Carried, Combination, Direction, Slot};
///
/// # fn main() -> Result<(), um::Invalid> {
/// let mut slot = Slot::new(Combination::Sdcch8, Direction::Downlink, 3, 64, 1)?;
/// let sent = um::send_block(&[3; 23], 5)?.map(|burst| um::soft_from_bits(&burst));
/// for frame in 518..521 {
///     assert!(slot.take(frame, &sent[frame as usize - 518])?.is_none());
/// }
/// let block = slot.take(521, &sent[3])?.expect("the fourth burst");
/// assert_eq!((block.channel, block.subchannel, block.report.accepted()), (Carried::Sdcch, 2, Some(&[3; 23])));
/// # Ok(())
/// # }
/// ```
#[repr(C)]
#[derive(Clone, Copy, PartialEq, Eq, Hash)]
pub struct Slot {
    last: u32,
    first: u32,
    combination: u8,
    direction: u8,
    timeslot: u8,
    words: u8,
    erasures: u8,
    heard: u8,
    bursts: [[i8; 148]; 4],
    limit: u8,
}

/// The settings.
impl fmt::Debug for Slot {
    fn fmt(&self, f: &mut fmt::Formatter<'_>) -> fmt::Result {
        let mut fields = f.debug_struct("Slot");
        fields.field("combination", &self.combination()).field("direction", &self.direction()).field("timeslot", &self.timeslot);
        fields.field("words", &self.words).field("erasures", &self.erasures).field("limit", &self.limit).finish()
    }
}

/// A block of a time slot.
#[derive(Clone, Copy, Debug, PartialEq, Eq)]
pub struct SlotBlock {
    /// What [`receive_block_erasing`] reports of the block's four bursts.
    pub report: BlockReport,
    /// The rank of the word, 1 for the most likely one.
    pub rank: u32,
    /// The frame number of the first burst.
    pub first: u32,
    /// SDCCH, SACCH, BCCH or CCCH.
    pub channel: Carried,
    /// The number of the SDCCH or SACCH; for CCCH the number of the block in the multiframe, 0 to 8; else 0.
    pub subchannel: u8,
    /// How many of the four bursts came.
    pub heard: u8,
    /// The burst that was erased, if one was.
    pub erasure: Erasure,
}

#[repr(C)]
pub(crate) struct PlainBlock {
    report: BlockReport,
    rank: u32,
    first: u32,
    channel: u8,
    subchannel: u8,
    heard: u8,
    erasure: PlainErasure,
}

pub(crate) const NO_PLAIN_BLOCK: PlainBlock =
    PlainBlock { report: NO_BLOCK, rank: 0, first: 0, channel: 0, subchannel: 0, heard: 0, erasure: NO_ERASURE };

impl PlainBlock {
    pub(crate) fn view(&self) -> SlotBlock {
        let PlainBlock { report, rank, first, channel, subchannel, heard, erasure } = *self;
        SlotBlock { report, rank, first, channel: Carried::of(channel), subchannel, heard, erasure: erasure.view() }
    }
}

/// The octets of a saved [`Slot`].
pub const SLOT_OCTETS: usize = 611;

const HEAD: &[u8; 4] = b"umT2";

/// All wrong training bits of three bursts: no limit.
const NO_LIMIT: u8 = 78;

extern "C" {
    fn um_receive_block_erasing(
        bursts: &[[i8; 148]; 4], most: u32, erasures: u8, report: &mut BlockReport, rank: &mut u32, erasure: &mut PlainErasure,
    ) -> bool;
    fn um_detect_training(bursts: &[[i8; 148]; 4], tsc: &mut u8, wrong_training: &mut [u8; 4]) -> bool;
    fn um_slot_new(slot: &mut Slot, combination: u8, direction: u8, timeslot: u8, words: u8, erasures: u8) -> bool;
    fn um_slot_take(slot: &mut Slot, frame: u32, burst: &[i8; 148], block: &mut PlainBlock) -> u8;
    fn um_slot_miss(slot: &mut Slot, frame: u32, block: &mut PlainBlock) -> u8;
    fn um_slot_restart(slot: &mut Slot) -> bool;
    fn um_slot_end(slot: &mut Slot, block: &mut PlainBlock) -> u8;
}

// SAFETY, for each call below: as in blocks.rs.

/// Decodes four bursts as [`receive_block_among`](crate::receive_block_among) does. If no word's CRC holds, decodes the block again with
/// one burst set to zeros, for each of at most `erasures` bursts (0 to 4) in turn, the burst with the most wrong training bits first, until
/// the CRC of a word holds. Returns the report, the rank of the word, and the burst that was erased.
///
/// # Errors
///
/// [`Invalid::Words`] if `most` is 0 or above 64, [`Invalid::Erasures`] if `erasures` is above 4; [`Invalid::SoftValue`] if a soft bit is
/// -128, [`Invalid::HardBits`] if all are 0 or 1 and one is 1.
pub fn receive_block_erasing(bursts: &[[i8; 148]; 4], most: u32, erasures: u8) -> Result<(BlockReport, u32, Erasure), Invalid> {
    if !(1..=64).contains(&most) {
        return Err(Invalid::Words);
    }
    if erasures > 4 {
        return Err(Invalid::Erasures);
    }
    not_hard(bursts)?;
    let (mut report, mut rank, mut erasure) = (NO_BLOCK, 0, NO_ERASURE);
    unsafe { um_receive_block_erasing(bursts, most, erasures, &mut report, &mut rank, &mut erasure) }
        .then(|| (report, rank, erasure.view()))
        .ok_or(Invalid::SoftValue)
}

/// The training sequence of four bursts, 0 to 7, and the wrong training bits of each burst, without decoding them. The sum of the counts is
/// the block's `wrong_training`.
///
/// # Errors
///
/// [`Invalid::SoftValue`] if a soft bit is -128, [`Invalid::HardBits`] if all are 0 or 1 and one is 1.
pub fn detect_training(bursts: &[[i8; 148]; 4]) -> Result<(u8, [u8; 4]), Invalid> {
    not_hard(bursts)?;
    let (mut tsc, mut wrong) = (0, [0; 4]);
    unsafe { um_detect_training(bursts, &mut tsc, &mut wrong) }.then_some((tsc, wrong)).ok_or(Invalid::SoftValue)
}

impl Slot {
    /// A new receiver. With one word and no erasures each report is that of [`receive_block`](crate::receive_block).
    ///
    /// # Errors
    ///
    /// [`Invalid::Channel`] of [`Combination::TchH`]: subchannel s of time slot t is [`Combination::TchF`] with time slot (t & 6) + s.
    /// [`Invalid::TimeSlot`] if `timeslot` is above 7, [`Invalid::Words`] if `words` is 0 or above 64, [`Invalid::Erasures`] if `erasures`
    /// is above 4.
    pub fn new(combination: Combination, direction: Direction, timeslot: u8, words: u8, erasures: u8) -> Result<Slot, Invalid> {
        let (combination, direction) = (combination as u8, direction as u8);
        let none = FRAMES;
        let bursts = [[0; 148]; 4];
        let mut slot =
            Slot { last: none, first: none, combination, direction, timeslot, words, erasures, heard: 0, bursts, limit: NO_LIMIT };
        in_time(timeslot, 0)?;
        if combination == Combination::TchH as u8 {
            return Err(Invalid::Channel);
        }
        match unsafe { um_slot_new(&mut slot, combination, direction, timeslot, words, erasures) } {
            true => Ok(slot),
            false if erasures > 4 => Err(Invalid::Erasures),
            false => Err(Invalid::Words),
        }
    }

    /// Takes the burst of a frame. Returns the block that is then complete, if one is.
    ///
    /// # Errors
    ///
    /// [`Invalid::SoftValue`] if a soft bit is -128, [`Invalid::FrameNumber`] if there is no such frame number, [`Invalid::Doubled`] if
    /// this frame was taken last, [`Invalid::Late`] if it is before that one; [`Invalid::HardBits`] if all soft bits of the block are 0 or
    /// 1 and one is 1. The receiver is then unchanged.
    pub fn take(&mut self, frame: u32, burst: &[i8; 148]) -> Result<Option<SlotBlock>, Invalid> {
        let before = *self;
        let block = self.taken(|slot, block| unsafe { um_slot_take(slot, frame, burst, block) })?;
        if let Some(hard) = block.as_ref().and_then(|block| before.hard_bits(block.first, frame, burst)) {
            *self = before;
            return Err(hard);
        }
        Ok(block)
    }

    /// Whether the soft bits of the block that this burst completes are hard bits: those held, and this burst. If the frame is of a later
    /// block, its burst is not to blame, and if it were refused, so would be every later one.
    fn hard_bits(&self, first: u32, frame: u32, burst: &[i8; 148]) -> Option<Invalid> {
        let place = place_frame(self.combination(), self.direction(), self.timeslot, frame).ok()??;
        if place.first != first {
            return None;
        }
        let mut bursts = if self.first == first { self.bursts } else { [[0; 148]; 4] };
        bursts[usize::from(place.burst)] = *burst;
        not_hard(&bursts).err()
    }

    /// Takes a frame whose burst did not come.
    ///
    /// # Errors
    ///
    /// As [`take`](Slot::take).
    pub fn miss(&mut self, frame: u32) -> Result<Option<SlotBlock>, Invalid> {
        self.taken(|slot, block| unsafe { um_slot_miss(slot, frame, block) })
    }

    /// Ends the block being collected, at the end of a recording.
    pub fn end(&mut self) -> Option<SlotBlock> {
        let mut plain = NO_PLAIN_BLOCK;
        (unsafe { um_slot_end(self, &mut plain) } == 1).then(|| plain.view())
    }

    /// Forgets the frames taken and the block being collected; the settings stay. After several late frames in a row (8, say) a frame
    /// number was false, or there was a long pause: restart, and take the frame again.
    pub fn restart(&mut self) {
        unsafe { um_slot_restart(self) };
    }

    /// More words and erasures are tried only if the three best bursts of a block have at most this many wrong training bits together, of
    /// 78, which is no limit. With 20 an idle channel costs what one word costs.
    ///
    /// # Errors
    ///
    /// [`Invalid::Limit`] if it is above 78.
    pub fn set_limit(&mut self, limit: u8) -> Result<(), Invalid> {
        self.limit = if limit > NO_LIMIT { return Err(Invalid::Limit) } else { limit };
        Ok(())
    }

    /// The limit of wrong training bits.
    #[must_use]
    pub fn limit(&self) -> u8 {
        self.limit
    }

    fn taken(&mut self, call: impl FnOnce(&mut Slot, &mut PlainBlock) -> u8) -> Result<Option<SlotBlock>, Invalid> {
        let mut plain = NO_PLAIN_BLOCK;
        match call(self, &mut plain) {
            0 => Ok(None),
            1 => Ok(Some(plain.view())),
            2 => Err(Invalid::SoftValue),
            4 => Err(Invalid::FrameNumber),
            5 => Err(Invalid::Doubled),
            6 => Err(Invalid::Late),
            _ => unreachable!("the state is written by the library alone, so it is that of a receiver"),
        }
    }

    /// The channels of the time slot.
    #[must_use]
    pub fn combination(&self) -> Combination {
        match self.combination {
            0 => Combination::BcchCcch,
            1 => Combination::BcchCcchSdcch4,
            2 => Combination::Sdcch8,
            3 => Combination::TchF,
            _ => Combination::TchH,
        }
    }

    /// The direction.
    #[must_use]
    pub fn direction(&self) -> Direction {
        if self.direction == 0 { Direction::Downlink } else { Direction::Uplink }
    }

    /// The state in the form that all languages read.
    #[must_use]
    pub fn to_bytes(&self) -> [u8; SLOT_OCTETS] {
        let mut octets = [0; SLOT_OCTETS];
        let mut fields = Writer(&mut octets);
        fields.put(HEAD);
        self.put_fields(&mut fields);
        octets
    }

    pub(crate) fn put_fields(&self, fields: &mut Writer<'_>) {
        fields.put(&self.last.to_le_bytes());
        fields.put(&self.first.to_le_bytes());
        fields.put(&[self.combination, self.direction, self.timeslot, self.words, self.erasures, self.heard]);
        for burst in &self.bursts {
            fields.put(&burst.map(|soft| soft as u8));
        }
        fields.put(&[self.limit]);
    }

    pub(crate) fn of_fields(fields: &mut Reader<'_>) -> Slot {
        let (last, first) = (u32::from_le_bytes(fields.take()), u32::from_le_bytes(fields.take()));
        let [combination, direction, timeslot, words, erasures, heard] = fields.take();
        let bursts = core::array::from_fn(|_| fields.take::<148>().map(|octet| octet as i8));
        let [limit] = fields.take();
        Slot { last, first, combination, direction, timeslot, words, erasures, heard, bursts, limit }
    }

    /// Restores what [`to_bytes`](Slot::to_bytes), or the call of another language, saved.
    ///
    /// # Errors
    ///
    /// [`NotSaved`] says what was found and what was expected.
    pub fn from_bytes(octets: &[u8]) -> Result<Slot, NotSaved> {
        let slot = Slot::of_fields(&mut Reader(saved::fields(octets, HEAD, SLOT_OCTETS)?));
        // a call on a copy tests the state
        let mut plain = NO_PLAIN_BLOCK;
        let answer = unsafe { um_slot_miss(&mut { slot }, slot.last.wrapping_add(1) % FRAMES, &mut plain) };
        if answer == 3 { Err(NotSaved::NoSlot) } else { Ok(slot) }
    }
}
