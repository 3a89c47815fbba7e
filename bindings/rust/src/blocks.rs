//! Blocks, access bursts and synchronisation bursts.

use crate::Invalid;

/// What the decoder reports for the four bursts of a block.
#[repr(C)]
#[derive(Clone, Copy, Debug, PartialEq, Eq, Hash)]
pub struct BlockReport {
    /// The path metric: sum of the soft bits, each negated where the coded bit is 1; at most 57912.
    pub metric: i32,
    /// Bit errors in the 104 training bits; a soft bit of 0 counts as an error.
    pub wrong_training: u32,
    /// Bit errors in the 456 coded bits, against the word re-encoded; a soft bit of 0 counts as an error.
    pub wrong_coded: u32,
    /// The detected training sequence, 0 to 7.
    pub tsc: u8,
    accepted: u8,
    octets: [u8; 23],
    /// The decoded word, one octet per bit: data 184, CRC 40, tail 4. [`receive_block`] reports the most likely one.
    pub word: [u8; 228],
}

impl BlockReport {
    /// The octets, if the CRC holds.
    #[must_use]
    pub fn accepted(&self) -> Option<&[u8; 23]> {
        (self.accepted == 1).then_some(&self.octets)
    }
}

/// The two most likely words of a block.
#[repr(C)]
#[derive(Clone, Copy, Debug, PartialEq, Eq, Hash)]
pub struct MarginReport {
    /// The metric of the word minus that of the next; 0 if and only if another word has the same metric.
    pub margin: i32,
    /// The most likely word, as [`receive_block`] reports it.
    pub word: [u8; 228],
    /// The second most likely word, the first of several.
    pub next: [u8; 228],
}

/// The correction of a word.
#[repr(C)]
#[derive(Clone, Copy, Debug, PartialEq, Eq, Hash)]
pub struct RepairReport {
    /// The index of the first wrong bit.
    pub first: u8,
    /// The number of bits from the first wrong one to the last, both included; at most twelve.
    pub span: u8,
    /// The codeword: data 184, CRC 40.
    pub word: [u8; 224],
}

/// The outcome of [`repair`].
#[allow(clippy::large_enum_variant)] // without a heap it cannot be boxed
#[derive(Clone, Copy, Debug, PartialEq, Eq, Hash)]
pub enum Repair {
    /// The CRC holds already.
    Holds,
    /// The word was corrected.
    Repaired(RepairReport),
    /// No codeword is that near.
    NoRepair,
}

/// What the decoder reports for an access burst.
#[repr(C)]
#[derive(Clone, Copy, Debug, PartialEq, Eq, Hash)]
pub struct AccessReport {
    /// At most 4572.
    pub metric: i32,
    /// Bit errors in the 41 synchronisation bits.
    pub wrong_training: u32,
    /// Bit errors in the 36 coded bits.
    pub wrong_coded: u32,
    accepted: u8,
    info: [u8; 8],
    /// Data 8, CRC 6 XORed with the BSIC, tail 4.
    pub word: [u8; 18],
}

impl AccessReport {
    /// The data bits, if the CRC holds for the base station's code.
    #[must_use]
    pub fn accepted(&self) -> Option<&[u8; 8]> {
        (self.accepted == 1).then_some(&self.info)
    }
}

/// What the decoder reports for a synchronisation burst.
#[repr(C)]
#[derive(Clone, Copy, Debug, PartialEq, Eq, Hash)]
pub struct SyncReport {
    /// At most 9906.
    pub metric: i32,
    /// Bit errors in the 64 training bits.
    pub wrong_training: u32,
    /// Bit errors in the 78 coded bits.
    pub wrong_coded: u32,
    accepted: u8,
    info: [u8; 25],
    /// Data 25, CRC 10, tail 4.
    pub word: [u8; 39],
}

impl SyncReport {
    /// The data bits, if the CRC holds.
    #[must_use]
    pub fn accepted(&self) -> Option<&[u8; 25]> {
        (self.accepted == 1).then_some(&self.info)
    }
}

extern "C" {
    fn um_send_block(octets: &[u8; 23], tsc: u8, bursts: &mut [[u8; 148]; 4]) -> bool;
    fn um_receive_block(bursts: &[[i8; 148]; 4], report: &mut BlockReport) -> bool;
    fn um_receive_block_among(bursts: &[[i8; 148]; 4], most: u32, report: &mut BlockReport, rank: &mut u32) -> bool;
    fn um_margin_block(bursts: &[[i8; 148]; 4], report: &mut MarginReport) -> bool;
    fn um_repair(word: &[u8; 224], report: &mut RepairReport) -> u8;
    fn um_send_access(info: &[u8; 8], bsic: &[u8; 6], burst: &mut [u8; 88]) -> bool;
    fn um_receive_access(burst: &[i8; 88], bsic: &[u8; 6], report: &mut AccessReport) -> bool;
    fn um_send_sync(info: &[u8; 25], burst: &mut [u8; 148]) -> bool;
    fn um_receive_sync(burst: &[i8; 148], report: &mut SyncReport) -> bool;
}

// SAFETY, for each call below: the references are to memory of the sizes that the library declares, and the library tests all
// values.

// Hard bits passed by mistake would be decoded, each 1 as a weak 0. Zeros alone are a lost block.
pub(crate) fn not_hard<const N: usize>(bursts: &[[i8; N]]) -> Result<(), Invalid> {
    let are_hard = bursts.iter().flatten().all(|value| matches!(value, 0 | 1)) && bursts.iter().flatten().any(|&value| value == 1);
    if are_hard { Err(Invalid::HardBits) } else { Ok(()) }
}

/// Encodes a block of 23 octets into four bursts, with training sequence 0 to 7.
///
/// # Errors
///
/// [`Invalid::TrainingSequence`] if `tsc` is above 7.
pub fn send_block(octets: &[u8; 23], tsc: u8) -> Result<[[u8; 148]; 4], Invalid> {
    let mut bursts = [[0; 148]; 4];
    unsafe { um_send_block(octets, tsc, &mut bursts) }.then_some(bursts).ok_or(Invalid::TrainingSequence)
}

pub(crate) const NO_BLOCK: BlockReport =
    BlockReport { metric: 0, wrong_training: 0, wrong_coded: 0, tsc: 0, accepted: 0, octets: [0; 23], word: [0; 228] };

/// Decodes four bursts by maximum likelihood.
///
/// # Errors
///
/// [`Invalid::SoftValue`] if a soft bit is -128, [`Invalid::HardBits`] if all are 0 or 1 and one is 1.
pub fn receive_block(bursts: &[[i8; 148]; 4]) -> Result<BlockReport, Invalid> {
    not_hard(bursts)?;
    let mut report = NO_BLOCK;
    unsafe { um_receive_block(bursts, &mut report) }.then_some(report).ok_or(Invalid::SoftValue)
}

/// Decodes four bursts by list decoding: the first of the `most` likeliest words (1 to 64) whose CRC holds, or the most likely word
/// if none matches. Returns the report and the word's rank, 1 for the most likely word.
///
/// # Errors
///
/// [`Invalid::Words`] if `most` is 0 or above 64; [`Invalid::SoftValue`] if a soft bit is -128, [`Invalid::HardBits`] if all are 0 or 1
/// and one is 1.
pub fn receive_block_among(bursts: &[[i8; 148]; 4], most: u32) -> Result<(BlockReport, u32), Invalid> {
    if !(1..=64).contains(&most) {
        return Err(Invalid::Words);
    }
    not_hard(bursts)?;
    let (mut report, mut rank) = (NO_BLOCK, 0);
    unsafe { um_receive_block_among(bursts, most, &mut report, &mut rank) }.then_some((report, rank)).ok_or(Invalid::SoftValue)
}

/// Decodes four bursts and reports the margin between the two most likely words.
///
/// # Errors
///
/// [`Invalid::SoftValue`] if a soft bit is -128, [`Invalid::HardBits`] if all are 0 or 1 and one is 1.
pub fn margin_block(bursts: &[[i8; 148]; 4]) -> Result<MarginReport, Invalid> {
    not_hard(bursts)?;
    let mut report = MarginReport { margin: 0, word: [0; 228], next: [0; 228] };
    unsafe { um_margin_block(bursts, &mut report) }.then_some(report).ok_or(Invalid::SoftValue)
}

/// Corrects a word of 224 bits, data and CRC, with an error burst of at most twelve bits.
///
/// # Errors
///
/// [`Invalid::Bit`] if an octet is neither 0 nor 1.
pub fn repair(word: &[u8; 224]) -> Result<Repair, Invalid> {
    let mut report = RepairReport { first: 0, span: 0, word: [0; 224] };
    match unsafe { um_repair(word, &mut report) } {
        0 => Ok(Repair::Holds),
        1 => Ok(Repair::Repaired(report)),
        2 => Ok(Repair::NoRepair),
        _ => Err(Invalid::Bit),
    }
}

/// Encodes the eight bits of RA, least significant first, into an access burst for a base station's identity code (six bits, most
/// significant first).
///
/// # Errors
///
/// [`Invalid::Bit`] if an octet is neither 0 nor 1.
pub fn send_access(info: &[u8; 8], bsic: &[u8; 6]) -> Result<[u8; 88], Invalid> {
    let mut burst = [0; 88];
    unsafe { um_send_access(info, bsic, &mut burst) }.then_some(burst).ok_or(Invalid::Bit)
}

/// Decodes an access burst for a base station's identity code.
///
/// # Errors
///
/// [`Invalid::Bit`] if an octet of `bsic` is neither 0 nor 1; [`Invalid::SoftValue`] if a soft bit is -128, [`Invalid::HardBits`] if all
/// are 0 or 1 and one is 1.
pub fn receive_access(burst: &[i8; 88], bsic: &[u8; 6]) -> Result<AccessReport, Invalid> {
    if bsic.iter().any(|&bit| bit > 1) {
        return Err(Invalid::Bit);
    }
    not_hard(core::slice::from_ref(burst))?;
    let mut report = AccessReport { metric: 0, wrong_training: 0, wrong_coded: 0, accepted: 0, info: [0; 8], word: [0; 18] };
    unsafe { um_receive_access(burst, bsic, &mut report) }.then_some(report).ok_or(Invalid::SoftValue)
}

/// Encodes 25 bits into a synchronisation burst. In frame FN, with s = FN / 1326, m = FN % 26 and r = (FN % 51 - 1) / 10, they are bits 9
/// and 10 of s, BSIC, bits 1 to 8 of s, bits 1 and 2 of r, m, bit 0 of s, and bit 0 of r, each field least significant bit first.
///
/// # Errors
///
/// [`Invalid::Bit`] if an octet is neither 0 nor 1.
pub fn send_sync(info: &[u8; 25]) -> Result<[u8; 148], Invalid> {
    let mut burst = [0; 148];
    unsafe { um_send_sync(info, &mut burst) }.then_some(burst).ok_or(Invalid::Bit)
}

/// Decodes a synchronisation burst.
///
/// # Errors
///
/// [`Invalid::SoftValue`] if a soft bit is -128, [`Invalid::HardBits`] if all are 0 or 1 and one is 1.
pub fn receive_sync(burst: &[i8; 148]) -> Result<SyncReport, Invalid> {
    not_hard(core::slice::from_ref(burst))?;
    let mut report = SyncReport { metric: 0, wrong_training: 0, wrong_coded: 0, accepted: 0, info: [0; 25], word: [0; 39] };
    unsafe { um_receive_sync(burst, &mut report) }.then_some(report).ok_or(Invalid::SoftValue)
}
