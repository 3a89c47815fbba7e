//! Traffic channels and ciphering: FACCH in stolen halves of bursts, the traffic frames of a multiframe, a receiver of FACCH and SACCH, a
//! sender, and bursts ciphered by a key stream. Speech is the caller's.

use crate::blocks::{not_hard, BlockReport, NO_BLOCK};
use crate::saved::{self, Reader, Writer};
use crate::slot::{PlainBlock, NO_PLAIN_BLOCK};
use crate::tdma::{in_time, Direction, FRAMES};
use crate::words::words;
use crate::{Combination, Invalid, NotSaved, Slot, SlotBlock};
use core::fmt;

/// A traffic channel: full rate, or one of the two of a time slot at half rate.
#[derive(Clone, Copy, Debug, PartialEq, Eq, Hash)]
pub enum TrafficChannel {
    /// TCH/F.
    FullRate,
    /// The first TCH/H of a time slot.
    HalfRate0,
    /// The second TCH/H of a time slot.
    HalfRate1,
}

words!(TrafficChannel: FullRate "full_rate", HalfRate0 "half_rate_0", HalfRate1 "half_rate_1");

/// What a block of a traffic channel is.
#[derive(Clone, Copy, Debug, PartialEq, Eq, Hash)]
pub enum TrafficKind {
    /// A block of SACCH.
    Sacch,
    /// A block of FACCH whose CRC holds.
    Facch,
    /// No CRC holds, but the flags rather say FACCH: nothing for a speech codec.
    Stolen,
    /// No CRC holds, and the flags do not say FACCH: other traffic.
    Speech,
}

words!(TrafficKind: Sacch "sacch", Facch "facch", Stolen "stolen", Speech "speech");

/// The traffic burst of a frame.
#[derive(Clone, Copy, Debug, PartialEq, Eq, Hash)]
pub struct TrafficPlace {
    /// Its number in the 26-multiframe: 0 to 23, at half rate 0 to 11.
    pub burst: u8,
    /// The number of the block of FACCH that begins with it: 0 to 5, at half rate 0 to 2.
    pub begins: Option<u8>,
    /// The number of the block of FACCH that ends with it.
    pub ends: Option<u8>,
}

/// A block of a traffic channel.
#[derive(Clone, Copy, Debug, PartialEq, Eq)]
pub struct TrafficBlock {
    /// What it is.
    pub kind: TrafficKind,
    /// Of SACCH as a [`Slot`] reports it; else the report on the joined block.
    pub block: SlotBlock,
    /// The sum of the eight stealing flags, negative if they rather say FACCH; 0 of SACCH.
    pub flags: i32,
    /// The halves joined to a block of four normal bursts; zeros of SACCH.
    pub bursts: [[i8; 148]; 4],
    /// Of FACCH: the burst that was erased, if one was; of SACCH `block.erasure` has it.
    pub erasure: FacchErasure,
}

/// Which of the bursts that carry a block of FACCH was erased, and how well they fit the training sequence.
#[derive(Clone, Copy, Debug, PartialEq, Eq, Hash)]
pub struct FacchErasure {
    /// The burst that was set to zeros, 0 to 7, at half rate 0 to 5.
    pub erased: Option<u8>,
    /// Bit errors in the 26 training bits of each burst as received; at half rate the last two are 0.
    pub wrong_training: [u8; 8],
}

#[repr(C)]
#[derive(Clone, Copy)]
struct PlainErasure {
    erased: u8,
    wrong_training: [u8; 8],
}

const NO_ERASURE: PlainErasure = PlainErasure { erased: 8, wrong_training: [0; 8] };

impl PlainErasure {
    fn view(self) -> FacchErasure {
        FacchErasure { erased: (self.erased < 8).then_some(self.erased), wrong_training: self.wrong_training }
    }
}

#[repr(C)]
struct PlainTrafficBlock {
    block: PlainBlock,
    flags: i32,
    kind: u8,
    bursts: [[i8; 148]; 4],
    erasure: PlainErasure,
}

impl PlainTrafficBlock {
    fn view(&self) -> TrafficBlock {
        let kind = match self.kind {
            0 => TrafficKind::Sacch,
            1 => TrafficKind::Facch,
            2 => TrafficKind::Stolen,
            _ => TrafficKind::Speech,
        };
        TrafficBlock { kind, block: self.block.view(), flags: self.flags, bursts: self.bursts, erasure: self.erasure.view() }
    }
}

const NO_TRAFFIC_BLOCK: PlainTrafficBlock =
    PlainTrafficBlock { block: NO_PLAIN_BLOCK, flags: 0, kind: 0, bursts: [[0; 148]; 4], erasure: NO_ERASURE };

/// What a frame brought: the blocks that ended before it, and the one that it completes.
#[derive(Clone, Copy, Default, PartialEq, Eq)]
pub struct Heard([Option<TrafficBlock>; 3]);

impl Heard {
    /// At most three blocks, in order.
    pub fn blocks(&self) -> impl Iterator<Item = &TrafficBlock> {
        self.0.iter().flatten()
    }

    fn push(&mut self, block: TrafficBlock) {
        if let Some(place) = self.0.iter_mut().find(|place| place.is_none()) {
            *place = Some(block);
        }
    }
}

/// As the list of [`blocks`](Heard::blocks).
impl fmt::Debug for Heard {
    fn fmt(&self, f: &mut fmt::Formatter<'_>) -> fmt::Result {
        f.debug_list().entries(self.blocks()).finish()
    }
}

/// A receiver of a traffic channel: collects the bursts of FACCH and of SACCH by their frame numbers, and decodes their blocks.
///
/// The frames come as those of a [`Slot`] do. A block is decoded as FACCH whatever its stealing flags say.
#[repr(C)]
#[derive(Clone, Copy, PartialEq, Eq, Hash)]
pub struct Traffic {
    sacch: Slot,
    first: u32,
    channel: u8,
    ended: u8,
    came: [u8; 8],
    bursts: [[i8; 148]; 8],
}

/// The settings.
impl fmt::Debug for Traffic {
    fn fmt(&self, f: &mut fmt::Formatter<'_>) -> fmt::Result {
        f.debug_struct("Traffic").field("channel", &self.channel()).field("sacch", &self.sacch).finish()
    }
}

/// The octets of a saved [`Traffic`].
pub const TRAFFIC_OCTETS: usize = 1809;

const HEAD: &[u8; 4] = b"umC1";

/// The octets of a saved [`TrafficSender`].
pub const TRAFFIC_SENDER_OCTETS: usize = 1790;

const SENDER_HEAD: &[u8; 4] = b"umO1";

/// The joined bursts of a block, and 0 if it is not sent.
#[repr(C)]
#[derive(Clone, Copy, PartialEq, Eq, Hash)]
struct SentBlock {
    kind: u8,
    bursts: [[u8; 148]; 4],
}

const NO_SENT_BLOCK: SentBlock = SentBlock { kind: 0, bursts: [[0; 148]; 4] };

/// A sender of a traffic channel: makes of blocks the bursts of FACCH and speech, by their frame numbers. SACCH is the caller's.
///
/// Each fourth traffic burst begins a block of four joined bursts, as [`send_block`](crate::send_block) makes them. The block that was
/// given last waits for the next such frame; FACCH goes before speech. At half rate a block of speech is two frames, which FACCH steals
/// both.
#[repr(C)]
#[derive(Clone, Copy, PartialEq, Eq, Hash)]
pub struct TrafficSender {
    first: u32,
    channel: u8,
    direction: u8,
    tsc: u8,
    waiting: SentBlock,
    begun: SentBlock,
    before: SentBlock,
}

/// The settings.
impl fmt::Debug for TrafficSender {
    fn fmt(&self, f: &mut fmt::Formatter<'_>) -> fmt::Result {
        f.debug_struct("TrafficSender").field("channel", &self.channel()).field("tsc", &self.tsc).finish()
    }
}

extern "C" {
    fn um_traffic_sender_new(sender: &mut TrafficSender, channel: u8, direction: u8, tsc: u8) -> bool;
    fn um_traffic_sender_facch(sender: &mut TrafficSender, octets: &[u8; 23]) -> bool;
    fn um_traffic_sender_speech(sender: &mut TrafficSender, block: &[[u8; 148]; 4]) -> bool;
    fn um_traffic_sender_burst(sender: &mut TrafficSender, frame: u32, burst: &mut [u8; 148]) -> u8;
    fn um_place_traffic(channel: u8, direction: u8, frame: u32, place: &mut [u8; 3]) -> u8;
    fn um_next_facch(channel: u8, direction: u8, frame: u32, first: &mut u32) -> bool;
    fn um_traffic_new(traffic: &mut Traffic, channel: u8, direction: u8, timeslot: u8, words: u8, erasures: u8) -> bool;
    fn um_traffic_take(traffic: &mut Traffic, frame: u32, burst: &[i8; 148], block: &mut PlainTrafficBlock) -> u8;
    fn um_traffic_miss(traffic: &mut Traffic, frame: u32, block: &mut PlainTrafficBlock) -> u8;
    fn um_traffic_restart(traffic: &mut Traffic) -> bool;
    fn um_traffic_end(traffic: &mut Traffic, block: &mut PlainTrafficBlock) -> u8;
    fn um_steal_facch_f(block: &[[u8; 148]; 4], bursts: &mut [[u8; 148]; 8]) -> bool;
    fn um_steal_facch_h(block: &[[u8; 148]; 4], bursts: &mut [[u8; 148]; 6]) -> bool;
    fn um_join_facch_f(bursts: &[[i8; 148]; 8], block: &mut [[i8; 148]; 4]) -> bool;
    fn um_join_facch_h(bursts: &[[i8; 148]; 6], block: &mut [[i8; 148]; 4]) -> bool;
    fn um_receive_facch_f_erasing(
        bursts: &[[i8; 148]; 8], most: u32, erasures: u8, report: &mut BlockReport, rank: &mut u32, erasure: &mut PlainErasure,
    ) -> bool;
    fn um_receive_facch_h_erasing(
        bursts: &[[i8; 148]; 6], most: u32, erasures: u8, report: &mut BlockReport, rank: &mut u32, erasure: &mut PlainErasure,
    ) -> bool;
    fn um_stealing_flags(block: &[[i8; 148]; 4], sum: &mut i32, wrong: &mut u8) -> bool;
    fn um_cipher_bits(burst: &mut [u8; 148], stream: &[u8; 114]) -> bool;
    fn um_soft_cipher(burst: &mut [i8; 148], stream: &[u8; 114]) -> bool;
}

// SAFETY, for each call below: as in blocks.rs.

/// The traffic burst that a frame carries, and the blocks of FACCH that begin and end with it. None if the frame is of SACCH, of the other
/// half or idle.
///
/// # Errors
///
/// [`Invalid::FrameNumber`] if there is no such frame number.
pub fn place_traffic(channel: TrafficChannel, direction: Direction, frame: u32) -> Result<Option<TrafficPlace>, Invalid> {
    in_time(0, frame)?;
    let mut place = [0; 3];
    let answer = unsafe { um_place_traffic(channel as u8, direction as u8, frame, &mut place) };
    let number = |octet: u8| (octet != 255).then_some(octet);
    Ok((answer == 0).then_some(TrafficPlace { burst: place[0], begins: number(place[1]), ends: number(place[2]) }))
}

/// The first frame number, at or after `frame`, in which a block of FACCH begins.
///
/// # Errors
///
/// [`Invalid::FrameNumber`] if there is no such frame number.
pub fn next_facch(channel: TrafficChannel, direction: Direction, frame: u32) -> Result<u32, Invalid> {
    let mut first = 0;
    unsafe { um_next_facch(channel as u8, direction as u8, frame, &mut first) }.then_some(first).ok_or(Invalid::FrameNumber)
}

/// Writes a block of four bursts into the eight bursts of a full rate traffic channel that carry it: its halves of their bits and flags,
/// the tail bits and the training sequence. The other halves stay as they are.
///
/// # Errors
///
/// [`Invalid::Bit`] if an octet is neither 0 nor 1; nothing is written then.
pub fn steal_facch_f(block: &[[u8; 148]; 4], bursts: &mut [[u8; 148]; 8]) -> Result<(), Invalid> {
    unsafe { um_steal_facch_f(block, bursts) }.then_some(()).ok_or(Invalid::Bit)
}

/// As [`steal_facch_f`], into six bursts of a half rate traffic channel.
///
/// # Errors
///
/// [`Invalid::Bit`] if an octet is neither 0 nor 1; nothing is written then.
pub fn steal_facch_h(block: &[[u8; 148]; 4], bursts: &mut [[u8; 148]; 6]) -> Result<(), Invalid> {
    unsafe { um_steal_facch_h(block, bursts) }.then_some(()).ok_or(Invalid::Bit)
}

/// Joins the halves of eight received bursts to the four bursts of a block, for [`receive_block`](crate::receive_block) and all other calls
/// on four bursts.
///
/// # Errors
///
/// [`Invalid::SoftValue`] if a soft bit is -128.
pub fn join_facch_f(bursts: &[[i8; 148]; 8]) -> Result<[[i8; 148]; 4], Invalid> {
    let mut block = [[0; 148]; 4];
    unsafe { um_join_facch_f(bursts, &mut block) }.then_some(block).ok_or(Invalid::SoftValue)
}

/// As [`join_facch_f`], of six bursts of a half rate traffic channel.
///
/// # Errors
///
/// [`Invalid::SoftValue`] if a soft bit is -128.
pub fn join_facch_h(bursts: &[[i8; 148]; 6]) -> Result<[[i8; 148]; 4], Invalid> {
    let mut block = [[0; 148]; 4];
    unsafe { um_join_facch_h(bursts, &mut block) }.then_some(block).ok_or(Invalid::SoftValue)
}

/// Receives a block of FACCH from the eight bursts that carry it: joins their halves and decodes them as
/// [`receive_block_among`](crate::receive_block_among) does. If no word's CRC holds, decodes the block again with one of these bursts set
/// to zeros, for each of at most `erasures` bursts (0 to 8) in turn, the burst with the most wrong training bits first, until the CRC of a
/// word holds. Returns the report, whose training bits are those of all these bursts, the rank of the word, and the burst that was erased.
///
/// # Errors
///
/// [`Invalid::Words`] if `most` is 0 or above 64, [`Invalid::Erasures`] if there are fewer bursts than `erasures`; [`Invalid::SoftValue`]
/// if a soft bit is -128, [`Invalid::HardBits`] if all are 0 or 1 and one is 1.
pub fn receive_facch_f_erasing(bursts: &[[i8; 148]; 8], most: u32, erasures: u8) -> Result<(BlockReport, u32, FacchErasure), Invalid> {
    erasing(bursts, most, erasures, |report, rank, erasure| unsafe {
        um_receive_facch_f_erasing(bursts, most, erasures, report, rank, erasure)
    })
}

/// As [`receive_facch_f_erasing`], from the six bursts of a half rate traffic channel.
///
/// # Errors
///
/// As of `receive_facch_f_erasing`.
pub fn receive_facch_h_erasing(bursts: &[[i8; 148]; 6], most: u32, erasures: u8) -> Result<(BlockReport, u32, FacchErasure), Invalid> {
    erasing(bursts, most, erasures, |report, rank, erasure| unsafe {
        um_receive_facch_h_erasing(bursts, most, erasures, report, rank, erasure)
    })
}

fn erasing(
    bursts: &[[i8; 148]], most: u32, erasures: u8, call: impl FnOnce(&mut BlockReport, &mut u32, &mut PlainErasure) -> bool,
) -> Result<(BlockReport, u32, FacchErasure), Invalid> {
    if !(1..=64).contains(&most) {
        return Err(Invalid::Words);
    }
    if usize::from(erasures) > bursts.len() {
        return Err(Invalid::Erasures);
    }
    not_hard(bursts)?;
    let (mut report, mut rank, mut erasure) = (NO_BLOCK, 0, NO_ERASURE);
    call(&mut report, &mut rank, &mut erasure).then(|| (report, rank, erasure.view())).ok_or(Invalid::SoftValue)
}

/// The sum of a joined block's eight stealing flags, negative if they rather say FACCH, and how many of them do not say so.
///
/// # Errors
///
/// [`Invalid::SoftValue`] if a soft bit is -128.
pub fn stealing_flags(block: &[[i8; 148]; 4]) -> Result<(i32, u8), Invalid> {
    let (mut sum, mut wrong) = (0, 0);
    unsafe { um_stealing_flags(block, &mut sum, &mut wrong) }.then_some((sum, wrong)).ok_or(Invalid::SoftValue)
}

/// Ciphers or deciphers the 114 coded bits of a burst by a key stream that the caller has.
///
/// # Errors
///
/// [`Invalid::Bit`] if an octet is neither 0 nor 1.
pub fn cipher_bits(burst: &[u8; 148], stream: &[u8; 114]) -> Result<[u8; 148], Invalid> {
    let mut ciphered = *burst;
    unsafe { um_cipher_bits(&mut ciphered, stream) }.then_some(ciphered).ok_or(Invalid::Bit)
}

/// Deciphers the 114 coded bits of a burst of soft bits: changes their signs where the stream has 1.
///
/// # Errors
///
/// [`Invalid::Bit`] if an octet of `stream` is neither 0 nor 1, [`Invalid::SoftValue`] if a soft bit is -128.
pub fn soft_cipher(burst: &[i8; 148], stream: &[u8; 114]) -> Result<[i8; 148], Invalid> {
    if stream.iter().any(|&bit| bit > 1) {
        return Err(Invalid::Bit);
    }
    let mut deciphered = *burst;
    unsafe { um_soft_cipher(&mut deciphered, stream) }.then_some(deciphered).ok_or(Invalid::SoftValue)
}

impl Traffic {
    /// A new receiver; words and erasures as those of a [`Slot`].
    ///
    /// # Errors
    ///
    /// As of [`Slot::new`].
    pub fn new(channel: TrafficChannel, direction: Direction, timeslot: u8, words: u8, erasures: u8) -> Result<Traffic, Invalid> {
        let sacch = Slot::new(Combination::TchF, direction, timeslot, words, erasures)?;
        let mut traffic = Traffic { sacch, first: FRAMES, channel: channel as u8, ended: 0, came: [0; 8], bursts: [[0; 148]; 8] };
        unsafe { um_traffic_new(&mut traffic, channel as u8, direction as u8, timeslot, words, erasures) }
            .then_some(traffic)
            .ok_or(Invalid::Words)
    }

    /// Takes the burst of a frame.
    ///
    /// # Errors
    ///
    /// As of [`Slot::take`]; the receiver is then unchanged.
    pub fn take(&mut self, frame: u32, burst: &[i8; 148]) -> Result<Heard, Invalid> {
        let before = *self;
        let (heard, completed) = self.heard(|traffic, block| unsafe { um_traffic_take(traffic, frame, burst, block) })?;
        // of a block that ended before this frame its burst is not to blame
        let hard = completed.filter(|block| block.kind != TrafficKind::Sacch).and_then(|block| not_hard(&block.bursts).err());
        if let Some(hard) = hard {
            *self = before;
            return Err(hard);
        }
        Ok(heard)
    }

    /// Takes a frame whose burst did not come.
    ///
    /// # Errors
    ///
    /// As of [`take`](Traffic::take).
    pub fn miss(&mut self, frame: u32) -> Result<Heard, Invalid> {
        Ok(self.heard(|traffic, block| unsafe { um_traffic_miss(traffic, frame, block) })?.0)
    }

    /// Ends the blocks being collected, at the end of a recording.
    pub fn end(&mut self) -> Heard {
        let mut heard = Heard::default();
        let mut plain = NO_TRAFFIC_BLOCK;
        while unsafe { um_traffic_end(self, &mut plain) } == 2 {
            heard.push(plain.view());
        }
        if let Some(block) = self.sacch.end() {
            heard.push(TrafficBlock { kind: TrafficKind::Sacch, block, flags: 0, bursts: [[0; 148]; 4], erasure: NO_ERASURE.view() });
        }
        heard
    }

    /// Forgets the frames taken and the blocks being collected; the settings stay.
    pub fn restart(&mut self) {
        unsafe { um_traffic_restart(self) };
    }

    /// As of a slot.
    ///
    /// # Errors
    ///
    /// [`Invalid::Limit`] if it is above 78.
    pub fn set_limit(&mut self, limit: u8) -> Result<(), Invalid> {
        self.sacch.set_limit(limit)
    }

    /// The traffic channel.
    #[must_use]
    pub fn channel(&self) -> TrafficChannel {
        match self.channel {
            0 => TrafficChannel::FullRate,
            1 => TrafficChannel::HalfRate0,
            _ => TrafficChannel::HalfRate1,
        }
    }

    /// The bursts of the block that was reported last, as they came, eight or at half rate six; until the next call.
    #[must_use]
    pub fn bursts(&self) -> &[[i8; 148]] {
        &self.bursts[..if self.channel == 0 { 8 } else { 6 }]
    }

    /// The state in the form that all languages read, for [`from_bytes`](Traffic::from_bytes).
    #[must_use]
    pub fn to_bytes(&self) -> [u8; TRAFFIC_OCTETS] {
        let mut octets = [0; TRAFFIC_OCTETS];
        let mut fields = Writer(&mut octets);
        fields.put(HEAD);
        self.sacch.put_fields(&mut fields);
        fields.put(&self.first.to_le_bytes());
        fields.put(&[self.channel, self.ended]);
        fields.put(&self.came);
        for burst in &self.bursts {
            fields.put(&burst.map(|soft| soft as u8));
        }
        octets
    }

    /// Restores what [`to_bytes`](Traffic::to_bytes), or the call of another language, saved.
    ///
    /// # Errors
    ///
    /// [`NotSaved`] says what was found and what was expected.
    pub fn from_bytes(octets: &[u8]) -> Result<Traffic, NotSaved> {
        let mut fields = Reader(saved::fields(octets, HEAD, TRAFFIC_OCTETS)?);
        let sacch = Slot::of_fields(&mut fields);
        let first = u32::from_le_bytes(fields.take());
        let [channel, ended] = fields.take();
        let came = fields.take();
        let bursts = core::array::from_fn(|_| fields.take::<148>().map(|octet| octet as i8));
        let traffic = Traffic { sacch, first, channel, ended, came, bursts };
        // a call on a copy tests the state
        let mut plain = NO_TRAFFIC_BLOCK;
        let answer = unsafe { um_traffic_end(&mut { traffic }, &mut plain) };
        if answer == 4 { Err(NotSaved::NoTraffic) } else { Ok(traffic) }
    }

    /// The blocks of a call, which is made again as long as a block ended before, and the one that the frame completes.
    fn heard(
        &mut self, mut call: impl FnMut(&mut Traffic, &mut PlainTrafficBlock) -> u8,
    ) -> Result<(Heard, Option<TrafficBlock>), Invalid> {
        let mut heard = Heard::default();
        let mut plain = NO_TRAFFIC_BLOCK;
        loop {
            match call(self, &mut plain) {
                0 => return Ok((heard, None)),
                1 => {
                    heard.push(plain.view());
                    return Ok((heard, Some(plain.view())));
                }
                2 => heard.push(plain.view()),
                3 => return Err(Invalid::SoftValue),
                5 => return Err(Invalid::FrameNumber),
                6 => return Err(Invalid::Doubled),
                7 => return Err(Invalid::Late),
                _ => unreachable!("the state is written by the library alone, so it is that of a receiver"),
            }
        }
    }
}

impl TrafficSender {
    /// A new sender, which has no block; `tsc` is the training sequence code of FACCH, 0 to 7.
    ///
    /// # Errors
    ///
    /// [`Invalid::TrainingSequence`] if it is above 7.
    pub fn new(channel: TrafficChannel, direction: Direction, tsc: u8) -> Result<TrafficSender, Invalid> {
        let mut sender = TrafficSender {
            first: FRAMES,
            channel: channel as u8,
            direction: direction as u8,
            tsc,
            waiting: NO_SENT_BLOCK,
            begun: NO_SENT_BLOCK,
            before: NO_SENT_BLOCK,
        };
        unsafe { um_traffic_sender_new(&mut sender, channel as u8, direction as u8, tsc) }
            .then_some(sender)
            .ok_or(Invalid::TrainingSequence)
    }

    /// Gives a block of FACCH, in place of speech that waits. False: a block of FACCH waits.
    #[must_use]
    pub fn facch(&mut self, octets: &[u8; 23]) -> bool {
        unsafe { um_traffic_sender_facch(self, octets) }
    }

    /// Gives a block of speech: its four joined bursts, at half rate of two frames, whose stealing flags are 0. False: a block of FACCH
    /// waits, which steals its place.
    ///
    /// # Errors
    ///
    /// [`Invalid::Bit`] if an octet is neither 0 nor 1.
    pub fn speech(&mut self, block: &[[u8; 148]; 4]) -> Result<bool, Invalid> {
        if block.iter().flatten().any(|&bit| bit > 1) {
            return Err(Invalid::Bit);
        }
        Ok(unsafe { um_traffic_sender_speech(self, block) })
    }

    /// The burst of a frame; `None` if nothing is to be sent: no block has a half in it, or the frame is none of the traffic channel. If a
    /// block may begin in this frame, the one that waits begins.
    ///
    /// # Errors
    ///
    /// [`Invalid::FrameNumber`] if there is no such frame number, [`Invalid::Late`] if it is before those of the blocks being sent.
    pub fn burst(&mut self, frame: u32) -> Result<Option<[u8; 148]>, Invalid> {
        let mut bits = [0; 148];
        match unsafe { um_traffic_sender_burst(self, frame, &mut bits) } {
            0 => Ok(Some(bits)),
            4 => Err(Invalid::FrameNumber),
            5 => Err(Invalid::Late),
            _ => Ok(None),
        }
    }

    /// The traffic channel.
    #[must_use]
    pub fn channel(&self) -> TrafficChannel {
        match self.channel {
            0 => TrafficChannel::FullRate,
            1 => TrafficChannel::HalfRate0,
            _ => TrafficChannel::HalfRate1,
        }
    }

    /// The state in the form that all languages read, for [`from_bytes`](TrafficSender::from_bytes).
    #[must_use]
    pub fn to_bytes(&self) -> [u8; TRAFFIC_SENDER_OCTETS] {
        let mut octets = [0; TRAFFIC_SENDER_OCTETS];
        let mut fields = Writer(&mut octets);
        fields.put(SENDER_HEAD);
        fields.put(&self.first.to_le_bytes());
        fields.put(&[self.channel, self.direction, self.tsc]);
        for block in [&self.waiting, &self.begun, &self.before] {
            fields.put(&[block.kind]);
            block.bursts.iter().for_each(|burst| fields.put(burst));
        }
        octets
    }

    /// Restores what [`to_bytes`](TrafficSender::to_bytes), or the call of another language, saved.
    ///
    /// # Errors
    ///
    /// [`NotSaved`] says what was found and what was expected.
    pub fn from_bytes(octets: &[u8]) -> Result<TrafficSender, NotSaved> {
        let mut fields = Reader(saved::fields(octets, SENDER_HEAD, TRAFFIC_SENDER_OCTETS)?);
        let first = u32::from_le_bytes(fields.take());
        let [channel, direction, tsc] = fields.take();
        let mut block = || SentBlock { kind: fields.take::<1>()[0], bursts: core::array::from_fn(|_| fields.take()) };
        let (waiting, begun, before) = (block(), block(), block());
        let sender = TrafficSender { first, channel, direction, tsc, waiting, begun, before };
        // a call on a copy tests the state
        let answer = unsafe { um_traffic_sender_burst(&mut { sender }, 0, &mut [0; 148]) };
        if answer == 3 { Err(NotSaved::NoTraffic) } else { Ok(sender) }
    }
}
