/** A list of numbers. Each call tests their range, and throws a TypeError or RangeError. */
export type Numbers = readonly number[] | Uint8Array | Uint8ClampedArray | Int8Array | Uint16Array | Int16Array | Uint32Array | Int32Array;
/** Octets, integers from 0 to 255. */
export type Octets = Numbers;
/** Hard bits, each 0 or 1, in transmission order. */
export type Bits = Numbers;
/**
 * Soft bits: integers from -127 (certainly 1) to 127 (certainly 0); 0 means unknown. A block has 592, or four bursts of 148. A call
 * refuses values that are all 0 or 1 with a 1 among them, since they are hard bits.
 */
export type SoftBits = Numbers | readonly Numbers[];

export type Kind = "i" | "rr" | "rnr" | "rej" | "sabm" | "dm" | "ui" | "disc" | "ua";
export type Channel = "sdcch" | "sacch";
export type Role = "mobile" | "network";
/** How the link of SAPI 0 is opened: by contention at the mobile, or without information by either side. */
export type Establishment = "contention" | "normal";
export type State = "idle" | "opening" | "open" | "closing" | "closed";
/** Why 23 octets are not a frame. */
export type Unread = "lpd" | "ea" | "control" | "el" | "length" | "empty" | "more";
/** Why a link was closed. */
/** What a block shows of the other side: an N(R) outside V(A) to V(S), a UA, or a DM with F = 1 that answers no repeat with P = 1. */
export type Fault = "nr" | "ua" | "dm";
export type Reason = "contention" | "failed" | "refused" | "released";
/** Why an endpoint refuses a call. */
export type Refusal = "notidle" | "notopen" | "notrunning" | "empty" | "toolong" | "full" | "noend" | "nocall" | "noframe";
/** Why a slot refuses a frame. */
export type SlotRefusal = "noslot" | "doubled" | "late";
/** The channels of a time slot. "tch_f" and "tch_h" have only the SACCH of traffic channels. */
export type Combination = "bcch_ccch" | "bcch_ccch_sdcch4" | "sdcch8" | "tch_f" | "tch_h";
/** A traffic channel: full rate, or one of the two of a time slot at half rate. */
export type TrafficChannel = "full_rate" | "half_rate_0" | "half_rate_1";
/** "sacch"; "facch", whose CRC holds; "stolen": no CRC holds, but the flags rather say FACCH; "speech": other traffic. */
export type TrafficKind = "sacch" | "facch" | "stolen" | "speech";
/** Why a receiver of a traffic channel refuses a frame. */
export type TrafficRefusal = "notraffic" | "doubled" | "late";
export type Direction = "downlink" | "uplink";
export type LogicalChannel = Channel | "bcch" | "ccch" | "fcch" | "sch" | "rach" | "facch";
export type Bit = 0 | 1;
export type Sapi = 0 | 3;

/** What the decoder reports for a block or a burst. */
export interface Report {
  /** The data if the CRC holds: 23 octets of a block, or 8 or 25 bits of a single burst; else null. */
  accepted: Uint8Array | null;
  /** The path metric: sum of the soft bits, each negated where the coded bit is 1. */
  metric: number;
  /** Bit errors in the training sequence; a soft bit of 0 counts as an error. */
  wrongTraining: number;
  /** Bit errors in the coded bits, against the word re-encoded; a soft bit of 0 counts as an error. */
  wrongCoded: number;
  /** The decoded word, one octet per bit: data, CRC, tail (184 + 40 + 4, 8 + 6 + 4 or 25 + 10 + 4). */
  word: Uint8Array;
}
export interface BlockReport extends Report {
  /** The detected training sequence, 0 to 7. */
  tsc: number;
}
/** Which burst was erased, and how well the bursts fit the training sequence. */
export interface Erasure {
  /** The burst that was set to zeros, 0 to 3, of FACCH 0 to 7 as they were sent, at half rate 0 to 5; null if none was. */
  erased: number | null;
  /** Bit errors in the 26 training bits of each burst as received; 26 in a burst that never came. */
  wrongTraining: number[];
}
/** A block of a time slot. */
export interface SlotBlock extends BlockReport {
  /** The rank of the word, 1 for the most likely one. */
  rank: number;
  /** The frame number of the first burst. */
  first: number;
  channel: LogicalChannel;
  /** Of SDCCH and SACCH; for CCCH the number of the block in the multiframe; else 0. */
  subchannel: number;
  /** How many of the four bursts came. */
  heard: number;
  erasure: Erasure;
}
/** The traffic burst of a frame. */
export interface TrafficPlace {
  /** Its number in the 26-multiframe: 0 to 23, at half rate 0 to 11. */
  burst: number;
  /** The number of the block of FACCH that begins with it: 0 to 5, at half rate 0 to 2; null: none. */
  begins: number | null;
  /** The number of the block of FACCH that ends with it; null: none. */
  ends: number | null;
}
/** A block of a traffic channel. */
export interface TrafficBlock extends SlotBlock {
  kind: TrafficKind;
  /** The sum of the eight stealing flags, negative if they rather say FACCH; not of SACCH. */
  flags?: number;
  /** The halves joined to the 592 soft bits of a block; not of SACCH. */
  bursts?: Int8Array;
}
/** What a synchronisation burst says. */
export interface Sch {
  /** The frame number; its T3 is 1, 11, 21, 31 or 41. */
  frame: number;
  /** The base station identity code, 0 to 63: 8 * ncc + bcc. */
  bsic: number;
  ncc: number;
  /** The base station colour code: the training sequence of BCCH and CCCH. */
  bcc: number;
}
/** The place of a frame in its channel. */
export interface Place {
  /** The frame number of the block's first burst; for FCCH, SCH and RACH that of the burst. */
  first: number;
  channel: LogicalChannel;
  subchannel: number;
  /** Which burst of the block, 0 to 3; for FCCH, SCH and RACH 0. */
  burst: number;
}
export interface Margin {
  /** The metric of the word minus that of the next one; 0 if and only if another word has the same metric. */
  margin: number;
  word: Uint8Array;
  /** The second most likely word. */
  next: Uint8Array;
}
export interface Repair {
  word: Uint8Array;
  /** The index of the first wrong bit. */
  first: number;
  /** The number of bits from the first wrong one to the last, both included; 0 if the CRC holds already. */
  span: number;
}
/** The fields of a frame. Fields that the kind does not have are 0, and `info` is empty. */
export interface Frame {
  kind: Kind;
  sapi: number;
  /** Command/response. */
  cr: number;
  /** Poll or final. */
  pf: number;
  ns: number;
  nr: number;
  /** M of an I frame. */
  more: number;
  info: Uint8Array;
  unread?: undefined;
}
/** A frame to encode; omitted fields are 0 or empty. */
export interface FrameFields {
  kind: Kind;
  sapi?: number;
  cr?: Bit | boolean;
  pf?: Bit | boolean;
  ns?: number;
  nr?: number;
  more?: Bit | boolean;
  info?: Octets;
}
/** An event that an endpoint reports. */
export type Notice =
  | { kind: "opened" | "got" | "unit"; message: Uint8Array }
  | { kind: "acked"; number: bigint }
  | { kind: "oversize" }
  | { kind: "closed"; reason: Reason };
/** A notice of a link of a data link. */
export type LinkNotice = Notice & { sapi: Sapi };
/** What goes into a slot. */
export interface Sent {
  /** The 23 octets to send. */
  block: Uint8Array;
  /** Whether the slot is free, and the block is the fill frame: `unit` may make another. */
  free: boolean;
  /** The links that were given up. */
  notices: LinkNotice[];
}
export interface Effects {
  /** The blocks to send, in order. */
  frames: Uint8Array[];
  /** What the endpoint reports, in order. */
  notices: Notice[];
}
export interface Variables {
  vs: number;
  va: number;
  vr: number;
  /** The number of retransmissions of the frame that awaits an answer. */
  retries: number;
  /** Whether a REJ was sent and no I frame accepted since. */
  rejecting: boolean;
  /** The number of messages not completely acknowledged. */
  held: number;
  /** The number of messages completely acknowledged. */
  done: bigint;
}
