import type {
  Numbers, Octets, Bits, SoftBits, Kind, Channel, Role, State, Unread, Reason, Refusal, SlotRefusal, Combination, Direction,
  LogicalChannel, Bit, Sapi, Report, BlockReport, Erasure, SlotBlock, Sch, Place, Margin, Repair, Frame, FrameFields, Notice,
  LinkNotice, Sent, Effects, Variables, Establishment, Fault, TrafficChannel, TrafficKind, TrafficRefusal, TrafficPlace, TrafficBlock,
} from "./types.js";

export * from "./types.js";

/** The version of the package. */
export const VERSION: string;
export const KINDS: readonly Kind[];
export const CHANNELS: readonly Channel[];
export const ROLES: readonly Role[];
export const ESTABLISHMENTS: readonly Establishment[];
export const FAULTS: readonly Fault[];
export const STATES: readonly State[];
export const NOTICES: readonly Notice["kind"][];
export const REASONS: readonly Reason[];
export const REFUSALS: readonly Refusal[];
export const UNREAD: readonly Unread[];
export const SLOT_REFUSALS: readonly SlotRefusal[];
export const COMBINATIONS: readonly Combination[];
export const DIRECTIONS: readonly Direction[];
export const LOGICAL_CHANNELS: readonly LogicalChannel[];
export const TRAFFIC_CHANNELS: readonly TrafficChannel[];
export const TRAFFIC_KINDS: readonly TrafficKind[];
export const TRAFFIC_REFUSALS: readonly TrafficRefusal[];
/** The frames of a hyperframe: frame numbers are 0 to FRAMES - 1. */
export const FRAMES: number;

/** An endpoint, a data link or a slot refused a call; its state is unchanged. */
export class Refused extends Error {
  readonly reason: Refusal | SlotRefusal | TrafficRefusal;
  constructor(reason: Refusal | SlotRefusal | TrafficRefusal, message?: string);
}

/** Converts hard bits to soft bits: 127 for a 0, -127 for a 1. */
export function softFromBits(bits: Bits): Int8Array;
/**
 * Converts log-likelihood ratios, ln P(0)/P(1), to soft bits: times `scale` (4), rounded to the nearest integer (ties to even), clipped to
 * -127 to 127. `positive` is the bit that a positive number represents. Scale samples so that a usual one is 32 to 64.
 */
export function softFromLlr(
  values: readonly number[] | Float32Array | Float64Array,
  options?: { scale?: number; positive?: Bit },
): Int8Array;
/** Converts libosmocore's sbit_t, from -128 to 127, to soft bits: -128 becomes -127. */
export function softFromSbits(sbits: Numbers): Int8Array;
/** Converts the soft bits of the TRX protocol, octets from 0 (certainly 0) to 255 (certainly 1): 127 minus the octet, at least -127. */
export function softFromTrx(octets: Octets): Int8Array;

/** A `Response` of `fetch`. */
export interface Fetched {
  readonly ok: boolean;
  readonly status: number;
  readonly url: string;
  arrayBuffer(): Promise<ArrayBuffer>;
}
/** A compiled `WebAssembly.Module`. */
export type CompiledModule = object;
/** Where `load` finds um.wasm: a URL (in node also a path), its octets, a `Response`, or a compiled module. */
export type Source = string | { readonly href: string } | ArrayBuffer | ArrayBufferView | Fetched | CompiledModule;

/** Loads um.wasm from the directory of this module, or from `source`. */
export function load(source?: Source | Promise<Source>): Promise<Um>;

/** The calls of the library, on one instance of um.wasm, which belongs to one thread. Created by `load`. */
export class Um {
  constructor(module: CompiledModule, instance?: object);
  /** The exports of the WebAssembly instance. Nothing tests the arguments of direct calls. */
  readonly exports: Readonly<Record<string, unknown>>;

  /** The version of um.wasm, such as "0.3.0"; `load` takes only one with the first two numbers of VERSION. */
  version(): string;

  /** Encodes a block of 23 octets into the 592 bits of four normal bursts, with training sequence 0 to 7. */
  sendBlock(octets: Octets, tsc: number): Uint8Array;
  /** Decodes four normal bursts by maximum likelihood. */
  receiveBlock(bursts: SoftBits): BlockReport;
  /**
   * Decodes four normal bursts by list decoding: the first of the `most` likeliest words (1 to 64) whose CRC holds, or the most likely
   * word if none does. `rank` is 1 for the most likely word.
   */
  receiveBlockAmong(bursts: SoftBits, most: number): BlockReport & { rank: number };
  /** Decodes four normal bursts and returns the two most likely words and the margin between them. */
  marginBlock(bursts: SoftBits): Margin;
  /**
   * Decodes four normal bursts as `receiveBlockAmong` does. If no word's CRC holds, decodes the block again with one burst set to zeros,
   * for each of at most `erasures` bursts (0 to 4) in turn, the one with the most wrong training bits first, until the CRC of a word holds.
   */
  receiveBlockErasing(bursts: SoftBits, most: number, erasures: number): BlockReport & { rank: number; erasure: Erasure };
  /**
   * The training sequence of four normal bursts and the wrong training bits of each, without decoding them. The sum of the counts is the
   * block's `wrongTraining`.
   */
  detectTraining(bursts: SoftBits): { tsc: number; wrongTraining: number[] };
  /** Corrects a word of 224 bits, data and CRC, with an error burst of at most 12 bits. Null: no codeword is that near. */
  repair(word: Bits): Repair | null;
  /** Encodes the eight bits of RA, least significant first, into an access burst of 88 bits for a base station's identity code (six bits,
   * most significant first). */
  sendAccess(info: Bits, bsic: Bits): Uint8Array;
  /** Decodes an access burst of 88 soft bits for a base station's identity code. */
  receiveAccess(burst: Numbers, bsic: Bits): Report;
  /** Encodes 25 bits into a synchronisation burst of 148 bits. In frame FN, with s = floor(FN / 1326), m = FN % 26 and
   * r = floor((FN % 51 - 1) / 10), they are bits 9 and 10 of s, BSIC, bits 1 to 8 of s, bits 1 and 2 of r, m, bit 0 of s, and bit 0 of r,
   * each field least significant bit first. */
  sendSync(info: Bits): Uint8Array;
  /** Decodes a synchronisation burst of 148 soft bits. */
  receiveSync(burst: Numbers): Report;
  /** Decodes the LAPDm frame in a block of 23 octets. Returns `{ unread }`, with the reason, if the octets are not a frame. */
  readFrame(octets: Octets, channel?: Channel): Frame | { unread: Unread };
  /** Encodes a frame into the 23 octets of its block, with layer 1 octets 00 on SACCH and fill octets 2b. */
  writeFrame(frame: FrameFields | Frame, channel?: Channel): Uint8Array;
  /** The 19 octets of a UI frame of format B4, such as system information, in a block of SACCH from a network. Null: the address or the
   * control octet is of another frame. */
  readB4(octets: Octets): Uint8Array | null;
  /** The block of SACCH from a network with two layer 1 octets (00) and a UI frame of format B4 with 19 octets. System information begins
   * with its L2 pseudo length. */
  writeB4(info: Octets, layer1?: Octets): Uint8Array;

  /** Splits a frame number into T1 (frame / 1326), T2 (frame % 26) and T3 (frame % 51). */
  timeOfFrame(frame: number): { t1: number; t2: number; t3: number };
  /** The frame number with this T1 (0 to 2047), T2 (0 to 25) and T3 (0 to 50). */
  frameOfTime(t1: number, t2: number, t3: number): number;
  /** Reads the 25 data bits of a synchronisation burst. Null: no frame number has these bits. */
  readSch(info: Bits): Sch | null;
  /** Writes the 25 data bits for `sendSync`. The frame's T3 is 1, 11, 21, 31 or 41. */
  writeSch(bsic: number, frame: number): Uint8Array;
  /** Reads RA from the data bits of an access burst. */
  readRa(info: Bits): number;
  /** Writes RA, the octet of a CHANNEL REQUEST, as the eight data bits of `sendAccess`, least significant bit first. */
  writeRa(ra: number): Uint8Array;
  /** Reads a base station identity code from six bits. */
  readBsic(code: Bits): number;
  /** Writes a base station identity code as six bits, most significant bit first. */
  writeBsic(bsic: number): Uint8Array;
  /** The channel and the burst that a frame of a time slot carries. Null: it is idle, or carries traffic. */
  placeFrame(combination: Combination, direction: Direction, timeslot: number, frame: number): Place | null;
  /** The first frame number, at or after `frame`, of a block (or burst) of this channel and subchannel. */
  nextBlock(
    combination: Combination,
    direction: Direction,
    timeslot: number,
    channel: LogicalChannel,
    subchannel: number,
    frame: number,
  ): number;
  /**
   * A new receiver of one time slot; words and erasures as in `receiveBlockErasing`, 1 and 0 unless the options say otherwise. More words
   * and erasures are tried only if the three best bursts have at most `limit` wrong training bits together, of 78, which is no limit.
   */
  slot(combination: Combination, options?: SlotOptions): Slot;
  /** A new receiver of a traffic channel, with the options of a slot. */
  traffic(channel: TrafficChannel, options?: SlotOptions): Traffic;
  /** A new sender of a traffic channel, which has no block; `tsc` is the training sequence of FACCH, 0 unless the options say otherwise. */
  trafficSender(channel: TrafficChannel, options?: { direction?: Direction; tsc?: number }): TrafficSender;
  /** Restores what `toBytes`, or the call of another language, saved. */
  trafficFromBytes(octets: Octets): Traffic;
  /** Restores what `toBytes`, or the call of another language, saved. */
  trafficSenderFromBytes(octets: Octets): TrafficSender;
  /** The traffic burst that a frame carries. Null: it is of SACCH, of the other half, or idle. */
  placeTraffic(channel: TrafficChannel, direction: Direction, frame: number): TrafficPlace | null;
  /** The first frame number, at or after `frame`, in which a block of FACCH begins. */
  nextFacch(channel: TrafficChannel, direction: Direction, frame: number): number;
  /**
   * Writes a block of four bursts (`sendBlock`) into the bursts of a traffic channel that carry it, eight or at half rate six, and returns
   * them: its halves of their bits and flags, the tail bits and the training sequence. The other halves stay as they are.
   */
  stealFacch(block: Bits | readonly Bits[], bursts: Bits | readonly Bits[]): Uint8Array;
  /** Joins the halves of eight received bursts, or at half rate six, to the 592 soft bits of a block. */
  joinFacch(bursts: SoftBits): Int8Array;
  /**
   * Receives a block of FACCH from the eight bursts that carry it, or at half rate six. If no word's CRC holds, decodes the block again
   * with one of these bursts set to zeros, for each of at most `erasures` bursts (0 to 8, or 0 to 6) in turn, the one with the most wrong
   * training bits first. The report's training bits are those of all these bursts.
   */
  receiveFacchErasing(bursts: SoftBits, most: number, erasures: number): BlockReport & { rank: number; erasure: Erasure };
  /** The sum of a joined block's eight stealing flags, negative if they rather say FACCH, and how many do not say so. */
  stealingFlags(block: SoftBits): { sum: number; wrong: number };
  /** Ciphers or deciphers the 114 coded bits of a burst of 148 by a key stream of 114. */
  cipherBits(burst: Bits, stream: Bits): Uint8Array;
  /** Deciphers the 114 coded bits of a burst of 148 soft bits: changes their signs where the stream has 1. */
  softCipher(burst: Numbers, stream: Bits): Int8Array;
  /** Restores a slot from `slot.toBytes()`. Throws Refused with the reason "noslot" if the state is not valid. */
  slotFromBytes(octets: Octets): Slot;

  /**
   * A new data link. T200 is in slots, 4 unless the options say otherwise, and 2 more for SAPI 3. `establishment` is "contention" unless
   * the options say "normal", for the channel of an assignment or a handover.
   */
  dataLink(role: Role, options?: { channel?: Channel; t200?: number; t200Sapi3?: number; establishment?: Establishment }): DataLink;
  /** The last answer of a new data link, to say it twice. */
  lastAnswer(): LastAnswer;
  /** Restores a data link from `link.toBytes()`. Throws Refused with the reason "noend" if the state is not valid. */
  dataLinkFromBytes(octets: Octets): DataLink;

  /** A new endpoint, of SAPI 0 on SDCCH unless the options say otherwise. */
  end(role: Role, options?: { sapi?: Sapi; channel?: Channel }): End;
  /** Restores an endpoint from `end.toBytes()`. Throws Refused with the reason "noend" if the state is not valid. */
  endFromBytes(octets: Octets): End;
  /** A new side: both links of a mobile, or of the network, on one channel. */
  side(role: Role, options?: { channel?: Channel }): Side;
  /** Restores a side from `side.toBytes()`. Throws Refused with the reason "noend" if the state is not valid. */
  sideFromBytes(octets: Octets): Side;
}

/**
 * An endpoint in acknowledged mode (3GPP TS 44.006, 5); created by `Um.end` and `Um.endFromBytes`. It does no I/O and has no timer: the
 * caller sends the `frames` that each call returns, in order, passes each received block to `take`, and calls `timer` on T200 expiry. A
 * call that is refused throws Refused and leaves the state unchanged.
 */
export class End {
  private constructor();
  readonly role: Role;
  readonly sapi: Sapi;
  readonly channel: Channel;
  readonly state: State;
  /** V(S), V(A), V(R), and counts of frames and messages. */
  readonly variables: Variables;
  /** Whether a frame awaits an answer, so that T200 runs. */
  readonly timerRuns: boolean;
  /** The state in the form that all languages read: 2,585 octets, for `endFromBytes`. */
  toBytes(): Uint8Array;
  /** An independent copy. */
  copy(): End;
  /** Opens the link of SAPI 0, at the mobile, with 1 to 20 octets of information (18 on SACCH). */
  open(info: Octets): Effects;
  /** Opens the link of SAPI 3, at either end. */
  openBare(): Effects;
  /** Sends a message of 1 to 251 octets over the open link. */
  send(octets: Octets): Effects;
  /** Sends 1 to 20 octets (18 on SACCH) in one UI frame, unacknowledged, in any state. */
  unit(octets: Octets): Effects;
  /** Releases the link. Messages not acknowledged are discarded. */
  close(): Effects;
  /** T200 has expired: retransmits the frame that awaits an answer, or gives the link up after N200 retransmissions. */
  timer(): Effects;
  /** The fill frame, for a block in which nothing else is to be sent. */
  idle(): Effects;
  /** Processes a received block of 23 octets. */
  take(octets: Octets): Effects;
}

/**
 * Both links (SAPI 0 and SAPI 3) of a mobile, or of the network, on one channel; created by `Um.side` and `Um.sideFromBytes`. Each call
 * acts on the endpoint of its SAPI as the call of `End` does, and leaves the other one unchanged. Each link has its own T200.
 */
export class Side {
  private constructor();
  readonly role: Role;
  readonly channel: Channel;
  /** The state in the form that all languages read: 5,166 octets, for `sideFromBytes`. */
  toBytes(): Uint8Array;
  /** An independent copy. */
  copy(): Side;
  /** A copy of the endpoint of one link; calls on it do not change the side. */
  end(sapi: Sapi): End;
  /** Whether a frame of this SAPI awaits an answer, so that its T200 runs. */
  timerRuns(sapi: Sapi): boolean;
  /** Opens the link of SAPI 0, at the mobile, with 1 to 20 octets of information (18 on SACCH). */
  open(info: Octets): Effects;
  /** Opens the link of SAPI 3, at either side. */
  openBare(): Effects;
  /** Sends a message of 1 to 251 octets over the open link of this SAPI. */
  send(sapi: Sapi, octets: Octets): Effects;
  /** Sends 1 to 20 octets (18 on SACCH) in one UI frame of this SAPI, unacknowledged, in any state. */
  unit(sapi: Sapi, octets: Octets): Effects;
  /** Releases the link of this SAPI. Messages not acknowledged are discarded. */
  close(sapi: Sapi): Effects;
  /** T200 of the link of this SAPI has expired. */
  timer(sapi: Sapi): Effects;
  /** The fill frame, for a block in which nothing else is to be sent. */
  idle(): Effects;
  /** Processes a received block at the endpoint of its SAPI, and returns the SAPI too. A frame of another SAPI is ignored. */
  take(octets: Octets): Effects & { sapi: Sapi };
}

/**
 * A receiver of one time slot. The bursts come in the order of their frame numbers. Frames may be left out: a burst that never came is
 * zeros. A block is decoded with its fourth burst, or with the first later frame that is of another block; frames without a place only keep
 * the order.
 */
export class Slot {
  private constructor();
  readonly combination: Combination;
  readonly direction: Direction;
  readonly timeslot: number;
  readonly limit: number;
  /** The state in the form that all languages read: 611 octets, for `slotFromBytes`. */
  toBytes(): Uint8Array;
  /** An independent copy. */
  copy(): Slot;
  /**
   * Takes the 148 soft bits of the burst of a frame, or none if it did not come. Returns the block that is then complete, or null. Throws
   * Refused with the reason "doubled" if the frame was taken last, "late" if it is before that one.
   */
  take(frame: number, burst?: Numbers | null): SlotBlock | null;
  /** Ends the block being collected, at the end of a recording; null if there is none. */
  end(): SlotBlock | null;
  /**
   * Forgets the frames taken and the block being collected; the settings stay. After several late frames in a row (8, say) a frame number
   * was false, or there was a long pause: restart, and take the frame again.
   */
  restart(): void;
}

/** The options of receivers. */
export interface SlotOptions {
  direction?: Direction;
  timeslot?: number;
  words?: number;
  erasures?: number;
  limit?: number;
}

/**
 * A receiver of a traffic channel: collects the bursts of FACCH and of SACCH by their frame numbers. The frames come as those of a `Slot`
 * do. A block is decoded as FACCH whatever its stealing flags say.
 */
export class Traffic {
  private constructor();
  readonly channel: TrafficChannel;
  /** The bursts of the block that was reported last, as they came, eight or at half rate six; until the next call. */
  readonly bursts: Int8Array[];
  /** The state in the form that all languages read: 1809 octets, for `trafficFromBytes`. */
  toBytes(): Uint8Array;
  /** An independent copy. */
  copy(): Traffic;
  /**
   * Takes the 148 soft bits of the burst of a frame, or none if it did not come. Returns the blocks that ended before it and the one that
   * it completes, at most three. Throws Refused with the reason "doubled" or "late" as a slot does.
   */
  take(frame: number, burst?: Numbers | null): TrafficBlock[];
  /** Ends the blocks being collected, at the end of a recording. */
  end(): TrafficBlock[];
  /** Forgets the frames taken and the blocks being collected; the settings stay. */
  restart(): void;
}

/**
 * A sender of a traffic channel: makes of blocks the bursts of FACCH and speech, by their frame numbers. SACCH is the caller's. Each
 * fourth traffic burst begins a block of four joined bursts, as `sendBlock` makes them. The block that was given last waits for the next
 * such frame; FACCH goes before speech. At half rate a block of speech is two frames, which FACCH steals both.
 */
export class TrafficSender {
  private constructor();
  readonly channel: TrafficChannel;
  /** The state in the form that all languages read: 1790 octets, for `trafficSenderFromBytes`. */
  toBytes(): Uint8Array;
  /** An independent copy. */
  copy(): TrafficSender;
  /** Gives a block of FACCH, 23 octets, in place of speech that waits. False: a block of FACCH waits. */
  facch(octets: Octets): boolean;
  /** Gives a block of speech: its four joined bursts, whose stealing flags are 0. False: a block of FACCH waits, which steals its place. */
  speech(block: Bits | readonly Bits[]): boolean;
  /**
   * The 148 bits of a frame's burst; null if nothing is to be sent: no block has a half in it, or the frame is none of the traffic channel.
   * If a block may begin in this frame, the one that waits begins. Throws Refused with the reason "late" if the frame is before those of
   * the blocks being sent.
   */
  burst(frame: number): Uint8Array | null;
}

/**
 * One side of a channel with its loop. In each slot, the time of one block each way, call `take` with what arrived, if anything did, then
 * the calls of layer 3, then `next` for the block to send. There is no queue and no timer: T200 counts slots. It is at least 2 + 2d, where
 * a block arrives d slots later than the slot after it was sent, and the same at both sides.
 *
 * After the notice `closed` go on with `take` and `next`: the answer to the other side's release goes out in the next slot. Go on until
 * `idle`, and for two T200 more where blocks are lost, since the other side repeats a release whose answer did not arrive.
 */
export class DataLink {
  private constructor();
  readonly role: Role;
  readonly channel: Channel;
  /** How the link of SAPI 0 is opened. A mobile that calls `establish(0)` on a link of "contention" makes it "normal". */
  readonly establishment: Establishment;
  /** The state of a link. */
  state(sapi: Sapi): State;
  /** A copy of the endpoint of a link. A link of SAPI 0 of normal establishment has an endpoint as on SAPI 3. */
  end(sapi: Sapi): End;
  /** The state in the form that all languages read: 5,224 octets, for `dataLinkFromBytes`. */
  toBytes(): Uint8Array;
  /** An independent copy. */
  copy(): DataLink;
  /** Opens the link of SAPI 0 by contention, at the mobile, with 1 to 20 octets of information (18 on SACCH). */
  open(info: Octets): void;
  /**
   * Opens the link of a SAPI without information, at either side. If it is closed or open, its end starts afresh first: fetch what is not
   * acknowledged with `unacked` before. The other side reports "opened" again if its end is closed, or is open by contention, or is open
   * and has received an I, RR, RNR or REJ. Refused while the link is being opened or released.
   */
  establish(sapi: Sapi): void;
  /** `establish(3)`. */
  openBare(): void;
  /** Sends a message of 1 to 251 octets over the link of a SAPI, which holds at most eight that are not acknowledged. */
  send(sapi: Sapi, octets: Octets): void;
  /**
   * The messages that were passed to `send` and are not completely acknowledged, oldest first: what to send again over another link. The
   * other side may have received the first of them. They can be read after the notice `closed` too, until a new opening or `closeLocal`.
   */
  unacked(sapi: Sapi): Uint8Array[];
  /** A UI frame with 1 to 20 octets (18 on SACCH), for a slot in which `next` says that it is free. */
  unit(sapi: Sapi, octets: Octets, layer1?: Octets): Uint8Array;
  /** Releases the link of a SAPI. */
  close(sapi: Sapi): void;
  /** Local end release: the end of this SAPI starts afresh. Nothing is sent and nothing reported. */
  closeLocal(sapi: Sapi): void;
  /** At a mobile on SACCH: says whether SAPI 0 of the main channel is established. */
  main(established: boolean): void;
  /** Processes a received block of 23 octets. */
  take(block: Octets): LinkNotice[];
  /** The fault that a received block shows on an open link, if any. Ask before `take`, which takes the block in any case. */
  fault(block: Octets): Fault | null;
  /** The block for this slot. On SACCH it begins with the two octets of `layer1`. */
  next(layer1?: Octets): Sent;
  /** Whether nothing waits for a slot and no frame awaits an answer, so that each next slot is free until a call or a block changes it. */
  readonly idle: boolean;
}

/**
 * The last answer of a data link, which goes once more into the next slot if that is free: an RR that is lost costs the other side a T200,
 * and one that comes twice changes nothing there. Make one for each data link, and call its `next` in place of that of the data link.
 */
export class LastAnswer {
  private constructor();
  /** The block for this slot, as `DataLink.next` says it. */
  next(link: DataLink, layer1?: Octets): Sent;
}
