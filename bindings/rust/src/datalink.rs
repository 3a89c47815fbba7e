//! Data links.

use crate::effects::{notice_of, Listed, Message, PlainNotice, NO_MESSAGE, NO_NOTICE};
use crate::saved::{self, Reader, Writer, FIELDS};
use crate::words::words;
use crate::{Channel, End, Invalid, NotSaved, Notice, Refused, Role, Sapi, State};
use core::fmt;

const AFTER_END: usize = 28;

/// The octets of a saved [`DataLink`].
pub const DATALINK_OCTETS: usize = 4 + 2 * (FIELDS + AFTER_END) + 2;

const HEAD: &[u8; 4] = b"umL2";

/// How the link of SAPI 0 is opened.
#[derive(Clone, Copy, Debug, PartialEq, Eq, Hash)]
pub enum Establishment {
    /// By the mobile, with [`DataLink::open`] and contention resolution: on the channel of an immediate assignment.
    Contention,
    /// By either side, with [`DataLink::establish`] and no information: on the channel of an assignment or a handover, and at the return to
    /// the channel that the mobile left.
    Normal,
}

words!(Establishment: Contention "contention", Normal "normal");

/// What a received block shows of the other side, if that breaks the rules on an open link.
#[derive(Clone, Copy, Debug, PartialEq, Eq, Hash)]
pub enum Fault {
    /// An N(R) outside V(A) to V(S).
    Nr,
    /// A UA.
    Ua,
    /// A DM with F = 1 that answers no repeat with P = 1.
    Dm,
}

words!(Fault: Nr "nr", Ua "ua", Dm "dm");

#[repr(C)]
#[derive(Clone, Copy, PartialEq, Eq, Hash)]
struct TimedEnd {
    end: End,
    t200: u8,
    sent: u8,
    clock: u8,
    owed: u8,
    answer: [u8; 23],
    heard: u8,
}

/// One side of a channel with its loop: both ends of the side, T200 counted in slots, and what goes into each slot.
///
/// A slot is the time of one block each way: 51 TDMA frames on SDCCH, 102 on SACCH. In each slot call [`take`](DataLink::take) with what
/// arrived, if anything did, then the calls of layer 3, then [`next`](DataLink::next) for the block to send. There is no queue and no
/// timer. T200 is at least 2 + 2d slots, where a block arrives d slots later than the slot after it was sent, and the same at both sides;
/// for SAPI 3 take two slots more. At a mobile, a frame of SAPI 3 is dropped while SAPI 0 is not established: on SDCCH the data link knows;
/// on SACCH say it with [`main`](DataLink::main). A copy is independent of the original.
///
/// After [`Notice::Closed`] go on with `take` and `next`: the answer to the other side's release goes out in the next slot. Go on until
/// [`is_idle`](DataLink::is_idle), and for two T200 more where blocks are lost, since the other side repeats a release whose answer did not
/// arrive.
///
/// ```
/// use um::{Channel, DataLink, Notice, Role, Sapi};
///
/// # fn main() -> Result<(), Box<dyn std::error::Error>> {
/// let mut mobile = DataLink::new(Role::Mobile, Channel::Sdcch, 4, 6)?;
/// let mut network = DataLink::new(Role::Network, Channel::Sdcch, 4, 6)?;
/// mobile.open(&[5, 36])?;
/// let report = network.take(&mobile.next([0, 0]).block)?; // a slot
/// assert_eq!(report.notices().next(), Some((Sapi::Signalling, Notice::Opened(&[5, 36]))));
/// # Ok(())
/// # }
/// ```
#[repr(C)]
#[derive(Clone, Copy, PartialEq, Eq, Hash)]
pub struct DataLink {
    link0: TimedEnd,
    link3: TimedEnd,
    heard0: u8,
    main: u8,
}

/// What a received block, or a slot, brought.
#[repr(C)]
#[derive(Clone, Copy, PartialEq, Eq, Hash)]
pub struct Report {
    notices: [PlainNotice; 3],
    sapis: [u8; 3],
    notice_count: u8,
}

/// The messages that a link sent and that are not completely acknowledged, oldest first.
#[derive(Clone, Copy, PartialEq, Eq, Hash)]
pub struct Unacked {
    messages: [Message; 8],
    count: usize,
}

impl Unacked {
    /// At most eight messages, in order.
    pub fn iter(&self) -> impl ExactSizeIterator<Item = &[u8]> + DoubleEndedIterator {
        self.messages[..self.count].iter().map(Message::octets)
    }
}

/// As the list of its messages.
impl fmt::Debug for Unacked {
    fn fmt(&self, f: &mut fmt::Formatter<'_>) -> fmt::Result {
        Listed(|| self.iter()).fmt(f)
    }
}

/// As the list of [`notices`](Report::notices).
impl fmt::Debug for Report {
    fn fmt(&self, f: &mut fmt::Formatter<'_>) -> fmt::Result {
        Listed(|| self.notices()).fmt(f)
    }
}

/// The role, the channel and the state of each link.
impl fmt::Debug for DataLink {
    fn fmt(&self, f: &mut fmt::Formatter<'_>) -> fmt::Result {
        let states = (self.state(Sapi::Signalling), self.state(Sapi::ShortMessages));
        f.debug_struct("DataLink").field("role", &self.role()).field("channel", &self.channel()).field("states", &states).finish()
    }
}

const NO_REPORT: Report = Report { notices: [NO_NOTICE; 3], sapis: [0; 3], notice_count: 0 };

impl Report {
    /// At most three notices, in order, each with the SAPI of its link.
    pub fn notices(&self) -> impl ExactSizeIterator<Item = (Sapi, Notice<'_>)> + DoubleEndedIterator {
        let count = usize::from(self.notice_count);
        self.notices[..count].iter().zip(&self.sapis[..count]).map(|(notice, &sapi)| (sapi_of(sapi), notice_of(notice)))
    }
}

fn sapi_of(number: u8) -> Sapi {
    if number == 3 { Sapi::ShortMessages } else { Sapi::Signalling }
}

/// What goes into a slot.
#[must_use]
#[derive(Clone, Copy, Debug, PartialEq, Eq, Hash)]
pub struct Sent {
    /// The block to send.
    pub block: [u8; 23],
    /// Whether nothing is to be sent: the block is the fill frame, and [`DataLink::unit`] may make another.
    pub is_free: bool,
    /// The links that were given up.
    pub report: Report,
}

/// The last answer of a data link, which goes once more into the next slot if that is free.
///
/// An RR that is lost costs the other side a T200, and one that comes twice changes nothing there. Make one for each data link, and call its
/// [`next`](LastAnswer::next) in place of that of the data link.
#[repr(C)]
#[derive(Clone, Copy, Debug, Default, PartialEq, Eq, Hash)]
pub struct LastAnswer {
    waits: u8,
    block: [u8; 23],
}

impl LastAnswer {
    /// The block for this slot, as [`DataLink::next`] says it.
    pub fn next(&mut self, link: &mut DataLink, layer1: [u8; 2]) -> Sent {
        let mut sent = link.next(layer1);
        let said = if sent.is_free { 10 } else { 0 };
        sent.is_free = unsafe { um_say_again(self, link.channel() as u8, said, &mut sent.block) } == 10;
        sent
    }
}

extern "C" {
    fn um_datalink_new_for(link: &mut DataLink, role: u8, channel: u8, establishment: u8, t200: u8, t200_sapi3: u8) -> bool;
    fn um_datalink_valid(link: &DataLink) -> bool;
    fn um_datalink_open(link: &mut DataLink, info: &Message) -> u8;
    fn um_datalink_establish(link: &mut DataLink, sapi: u8) -> u8;
    fn um_datalink_send(link: &mut DataLink, sapi: u8, message: &Message) -> u8;
    fn um_datalink_unacked(link: &DataLink, sapi: u8, index: u8, message: &mut Message) -> u8;
    fn um_datalink_unit(link: &DataLink, sapi: u8, message: &Message, layer1: &[u8; 2], block: &mut [u8; 23]) -> u8;
    fn um_datalink_close(link: &mut DataLink, sapi: u8) -> u8;
    fn um_datalink_close_local(link: &mut DataLink, sapi: u8) -> u8;
    fn um_datalink_main(link: &mut DataLink, established: bool) -> u8;
    fn um_datalink_take(link: &mut DataLink, block: &[u8; 23], report: &mut Report) -> u8;
    fn um_datalink_next(link: &mut DataLink, layer1: &[u8; 2], block: &mut [u8; 23], report: &mut Report) -> u8;
    fn um_datalink_fault(link: &DataLink, block: &[u8; 23]) -> u8;
    fn um_say_again(said: &mut LastAnswer, channel: u8, next: u32, block: &mut [u8; 23]) -> u8;
}

fn accepted(answer: u8) -> Result<(), Refused> {
    Refused::of(answer).map_or(Ok(()), Err)
}

// SAFETY, for each call below: as in ends.rs.

impl DataLink {
    /// A new data link of [`Establishment::Contention`], with T200 of SAPI 0 and of SAPI 3 in slots.
    ///
    /// # Errors
    ///
    /// [`Invalid::T200`] if a T200 is 0.
    pub fn new(role: Role, channel: Channel, t200: u8, t200_sapi3: u8) -> Result<DataLink, Invalid> {
        DataLink::new_for(role, channel, Establishment::Contention, t200, t200_sapi3)
    }

    /// A new data link whose link of SAPI 0 is opened in this way.
    ///
    /// ```
    /// use um::{Channel, DataLink, Establishment, Notice, Role, Sapi};
    ///
    /// # fn main() -> Result<(), Box<dyn std::error::Error>> {
    /// let new = |role| DataLink::new_for(role, Channel::Sdcch, Establishment::Normal, 4, 6);
    /// let (mut mobile, mut network) = (new(Role::Mobile)?, new(Role::Network)?);
    /// network.establish(Sapi::Signalling)?; // either side may
    /// let report = mobile.take(&network.next([0, 0]).block)?;
    /// assert_eq!(report.notices().next(), Some((Sapi::Signalling, Notice::Opened(&[]))));
    /// # Ok(())
    /// # }
    /// ```
    ///
    /// # Errors
    ///
    /// [`Invalid::T200`] if a T200 is 0.
    pub fn new_for(role: Role, channel: Channel, kind: Establishment, t200: u8, t200_sapi3: u8) -> Result<DataLink, Invalid> {
        let timed = |sapi, t200| {
            let end = match role {
                Role::Mobile => End::mobile(sapi, channel),
                Role::Network => End::network(sapi, channel),
            };
            TimedEnd { end, t200, sent: 0, clock: 0, owed: 0, answer: [0; 23], heard: 0 }
        };
        let (link0, link3) = (timed(Sapi::Signalling, t200), timed(Sapi::ShortMessages, t200_sapi3));
        let mut link = DataLink { link0, link3, heard0: 0, main: 0 };
        let made = unsafe { um_datalink_new_for(&mut link, role as u8, channel as u8, kind as u8, t200, t200_sapi3) };
        made.then_some(link).ok_or(Invalid::T200)
    }

    /// Opens the link of SAPI 0 by contention, at the mobile, with 1 to 20 octets of information (18 on SACCH).
    ///
    /// # Errors
    ///
    /// [`Refused::NoCall`], [`Refused::NotIdle`], [`Refused::Empty`] or [`Refused::TooLong`].
    pub fn open(&mut self, info: &[u8]) -> Result<(), Refused> {
        accepted(unsafe { um_datalink_open(self, &Message::new(info)) })
    }

    /// Opens the link of a SAPI without information, at either side. If it is closed or open, its end starts afresh first: fetch what is
    /// not acknowledged with [`unacked`](DataLink::unacked) before. The other side reports `Opened` again if its end is closed, or is open
    /// by contention, or is open and has received an I, RR, RNR or REJ.
    ///
    /// # Errors
    ///
    /// [`Refused::NotIdle`] while the link is being opened or released.
    pub fn establish(&mut self, sapi: Sapi) -> Result<(), Refused> {
        accepted(unsafe { um_datalink_establish(self, sapi as u8) })
    }

    /// [`establish`](DataLink::establish) of SAPI 3.
    ///
    /// # Errors
    ///
    /// As those of `establish`.
    pub fn open_bare(&mut self) -> Result<(), Refused> {
        self.establish(Sapi::ShortMessages)
    }

    /// Sends a message of 1 to 251 octets over the link of a SAPI, which holds at most eight that are not acknowledged.
    ///
    /// # Errors
    ///
    /// [`Refused::NotOpen`], [`Refused::Empty`], [`Refused::TooLong`] or [`Refused::Full`].
    pub fn send(&mut self, sapi: Sapi, message: &[u8]) -> Result<(), Refused> {
        accepted(unsafe { um_datalink_send(self, sapi as u8, &Message::new(message)) })
    }

    /// The messages that were passed to [`send`](DataLink::send) and are not completely acknowledged, oldest first: what to send again over
    /// another link. The other side may have received the first of them. They can be read after [`Notice::Closed`] too, until a new opening
    /// or [`close_local`](DataLink::close_local).
    #[must_use]
    pub fn unacked(&self, sapi: Sapi) -> Unacked {
        let mut unacked = Unacked { messages: [NO_MESSAGE; 8], count: 0 };
        for (index, message) in (0..).zip(&mut unacked.messages) {
            if unsafe { um_datalink_unacked(self, sapi as u8, index, message) } != 0 {
                break;
            }
            unacked.count += 1;
        }
        unacked
    }

    /// A UI frame with 1 to 20 octets (18 on SACCH), for a slot that is free. On SACCH `layer1` are its layer 1 octets.
    ///
    /// # Errors
    ///
    /// [`Refused::Empty`] or [`Refused::TooLong`].
    pub fn unit(&self, sapi: Sapi, message: &[u8], layer1: [u8; 2]) -> Result<[u8; 23], Refused> {
        let mut block = [0; 23];
        accepted(unsafe { um_datalink_unit(self, sapi as u8, &Message::new(message), &layer1, &mut block) }).map(|()| block)
    }

    /// Releases the link of a SAPI. Messages not acknowledged are discarded.
    ///
    /// # Errors
    ///
    /// [`Refused::NotOpen`].
    pub fn close(&mut self, sapi: Sapi) -> Result<(), Refused> {
        accepted(unsafe { um_datalink_close(self, sapi as u8) })
    }

    /// Local end release: the end of this SAPI starts afresh. Nothing is sent and nothing reported.
    pub fn close_local(&mut self, sapi: Sapi) {
        unsafe { um_datalink_close_local(self, sapi as u8) };
    }

    /// At a mobile on SACCH: says whether SAPI 0 of the main channel is established. It has no effect elsewhere.
    pub fn main(&mut self, established: bool) {
        unsafe { um_datalink_main(self, established) };
    }

    /// Processes a received block. On SACCH its layer 1 octets are ignored.
    ///
    /// # Errors
    ///
    /// [`Refused::NoFrame`]; [`read_frame`](crate::read_frame) says why.
    pub fn take(&mut self, block: &[u8; 23]) -> Result<Report, Refused> {
        let mut report = NO_REPORT;
        accepted(unsafe { um_datalink_take(self, block, &mut report) }).map(|()| report)
    }

    /// The fault that a received block shows, if any. Ask before [`take`](DataLink::take), which takes the block in any case.
    #[must_use]
    pub fn fault(&self, block: &[u8; 23]) -> Option<Fault> {
        match unsafe { um_datalink_fault(self, block) } {
            1 => Some(Fault::Nr),
            2 => Some(Fault::Ua),
            3 => Some(Fault::Dm),
            _ => None,
        }
    }

    /// The block for this slot. On SACCH `layer1` are its layer 1 octets.
    pub fn next(&mut self, layer1: [u8; 2]) -> Sent {
        let mut sent = Sent { block: [0; 23], is_free: false, report: NO_REPORT };
        sent.is_free = unsafe { um_datalink_next(self, &layer1, &mut sent.block, &mut sent.report) } == 10;
        sent
    }

    /// Whether nothing waits for a slot and no frame awaits an answer, so that each next slot is free until a call or a block changes it.
    #[must_use]
    pub fn is_idle(&self) -> bool {
        [&self.link0, &self.link3].iter().all(|link| link.owed == 0 && !link.end.timer_runs())
    }

    /// The mobile or the network.
    #[must_use]
    pub fn role(&self) -> Role {
        self.link0.end.role()
    }

    /// How the link of SAPI 0 is opened. A mobile that calls `establish` on a link of contention makes it normal.
    #[must_use]
    pub fn establishment(&self) -> Establishment {
        match self.link0.end.sapi() {
            Sapi::Signalling => Establishment::Contention,
            Sapi::ShortMessages => Establishment::Normal,
        }
    }

    /// The channel of both links.
    #[must_use]
    pub fn channel(&self) -> Channel {
        self.link0.end.channel()
    }

    /// The state of the link of a SAPI.
    #[must_use]
    pub fn state(&self, sapi: Sapi) -> State {
        match sapi {
            Sapi::Signalling => self.link0.end.state(),
            Sapi::ShortMessages => self.link3.end.state(),
        }
    }

    /// The state in the form that all languages read.
    #[must_use]
    pub fn to_bytes(&self) -> [u8; DATALINK_OCTETS] {
        let mut octets = [0; DATALINK_OCTETS];
        let mut fields = Writer(&mut octets);
        fields.put(HEAD);
        for link in [&self.link0, &self.link3] {
            fields.put(&link.end.to_bytes()[4..]);
            fields.put(&[link.t200, link.sent, link.clock, link.owed]);
            fields.put(&link.answer);
            fields.put(&[link.heard]);
        }
        fields.put(&[self.heard0, self.main]);
        octets
    }

    /// Restores what [`to_bytes`](DataLink::to_bytes), or the call of another language, saved.
    ///
    /// # Errors
    ///
    /// [`NotSaved`] says what was found and what was expected.
    pub fn from_bytes(octets: &[u8]) -> Result<DataLink, NotSaved> {
        let mut fields = Reader(saved::fields(octets, HEAD, DATALINK_OCTETS)?);
        let mut timed = || {
            let end = End::read(&fields.take::<FIELDS>())?;
            let [t200, sent, clock, owed] = fields.take();
            let answer = fields.take();
            let [heard] = fields.take();
            Ok(TimedEnd { end, t200, sent, clock, owed, answer, heard })
        };
        let (link0, link3) = (timed()?, timed()?);
        let [heard0, main] = fields.take();
        let link = DataLink { link0, link3, heard0, main };
        if unsafe { um_datalink_valid(&link) } { Ok(link) } else { Err(NotSaved::NoEnd) }
    }
}
