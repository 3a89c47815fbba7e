// traffic.mjs - traffic channels and ciphering: FACCH in stolen halves of bursts, the traffic frames of a multiframe, a receiver of FACCH
// and SACCH by frame numbers, a sender, and bursts ciphered by a key stream. Each call takes the machine first.
import {
  areHardBits, bitRows, bitsOf, integer, octetsOf, place, putBits, putOctets, putSoft, refuse128, refuseHardBits,
} from "./arguments.mjs";
import { headOf, restoredHead } from "./ends.mjs";
import { blockAt, LIMIT } from "./slot.mjs";
import { frameOf } from "./tdma.mjs";
import { DIRECTIONS, Refused, TRAFFIC_CHANNELS, TRAFFIC_KINDS } from "./words.mjs";

// um_traffic: a um_slot, the first burst, the channel, nine octets, and eight bursts; um_traffic_block: a um_slot_block, flags, kind,
// bursts
const TRAFFIC = 1808;
const CHANNEL = 612;
const BURSTS = 622;
const LIMIT_AT = 606;
const FLAGS = 284;
const KIND = 288;
const ERASURE = 881;
// the receiver of SACCH, and after an octet of padding the other fields
const SACCH_FIELDS = 607;
const FIELDS_AT = 608;
const TRAFFIC_FIELDS = 1805;
// um_traffic_sender: the first burst, three numbers, three blocks of 593 octets, and two octets of padding
const SENDER = 1788;
const SENDER_FIELDS = 1786;
const NO_STATE = { traffic: 4, sender: 3 };

const numbersOf = (channel, direction) => [place("channel", channel, TRAFFIC_CHANNELS), place("direction", direction, DIRECTIONS)];
const orNull = (octet) => (octet === 255 ? null : octet);
const isFull = (name, count) => {
  if (count === 8 || count === 6) return count === 8;
  throw new RangeError(`${name} has ${count} bursts of 148; expected 8 at full rate, or 6 at half rate`);
};
// how many bursts of 148 a list has, flat or of rows
const burstsIn = (values) =>
  Array.isArray(values) && typeof values[0] !== "number" ? values.length : Math.floor((values?.length ?? 0) / 148);

export const placeTraffic = (m, channel, direction, frame) => {
  if (m.call("um_place_traffic", ...numbersOf(channel, direction), frameOf(frame), m.OUTPUT)) return null;
  const [burst, begins, ends] = m.octets.subarray(m.output, m.output + 3);
  return { burst, begins: orNull(begins), ends: orNull(ends) };
};

export const nextFacch = (m, channel, direction, frame) => {
  m.told("um_next_facch", ...numbersOf(channel, direction), frameOf(frame), m.OUTPUT);
  return m.view.getUint32(m.output, true);
};

export const stealFacch = (m, block, bursts) => {
  const count = burstsIn(bursts);
  const name = isFull("bursts", count) ? "um_steal_facch_f" : "um_steal_facch_h";
  const [stolen, carrying] = [bitRows("block", block, 4), bitRows("bursts", bursts, count)];
  m.octets.set(stolen, m.second);
  m.octets.set(carrying, m.input);
  m.told(name, m.SECOND, m.INPUT);
  return m.copy(m.input, 148 * count);
};

export const joinFacch = (m, bursts) => {
  const count = burstsIn(bursts);
  const name = isFull("bursts", count) ? "um_join_facch_f" : "um_join_facch_h";
  m.receive(name, "bursts", bursts, 148 * count, m.OUTPUT);
  return m.signed.slice(m.output, m.output + 592);
};

// the um_facch_erasure of a block of so many bursts
const erasureAt = (m, at, count) => ({
  erased: m.octets[at] === 8 ? null : m.octets[at],
  wrongTraining: Array.from(m.octets.subarray(at + 1, at + 1 + count)),
});

export const receiveFacchErasing = (m, bursts, most, erasures) => {
  const count = burstsIn(bursts);
  const name = isFull("bursts", count) ? "um_receive_facch_f_erasing" : "um_receive_facch_h_erasing";
  const numbers = [integer("most", most, 1, 64), integer("erasures", erasures, 0, count)];
  m.receive(name, "bursts", bursts, 148 * count, ...numbers, m.OUTPUT, m.BESIDE, m.BESIDE + 8n);
  return { ...m.blockReport(), rank: m.view.getUint32(m.beside, true), erasure: erasureAt(m, m.beside + 8, count) };
};

export const stealingFlags = (m, block) => {
  m.receive("um_stealing_flags", "block", block, 592, m.BESIDE, m.BESIDE + 8n);
  return { sum: m.view.getInt32(m.beside, true), wrong: m.octets[m.beside + 8] };
};

export const cipherBits = (m, burst, stream) => {
  const bits = bitsOf("burst", burst, 148);
  putBits(m.octets, m.second, "stream", stream, 114);
  m.octets.set(bits, m.input);
  m.told("um_cipher_bits", m.INPUT, m.SECOND);
  return m.copy(m.input, 148);
};

export const softCipher = (m, burst, stream) => {
  const bits = bitsOf("stream", stream, 114);
  putSoft(m.signed, m.input, "burst", burst, 148);
  m.octets.set(bits, m.second);
  if (!m.call("um_soft_cipher", m.INPUT, m.SECOND)) refuse128("burst", burst, 148);
  return m.signed.slice(m.input, m.input + 148);
};

export class Traffic {
  #machine;
  #state;

  constructor(machine, state) {
    this.#machine = machine;
    this.#state = state;
  }

  get channel() {
    return TRAFFIC_CHANNELS[this.#state[CHANNEL]];
  }
  get bursts() {
    const octets = this.#state.slice(BURSTS, BURSTS + 148 * (this.#state[CHANNEL] === 0 ? 8 : 6));
    return Array.from({ length: octets.length / 148 }, (_, i) => new Int8Array(octets.buffer, 148 * i, 148));
  }
  copy() {
    return new Traffic(this.#machine, this.#state.slice());
  }
  toBytes() {
    const octets = new Uint8Array(4 + TRAFFIC_FIELDS);
    octets.set(headOf("C"));
    octets.set(this.#state.subarray(0, SACCH_FIELDS), 4);
    octets.set(this.#state.subarray(FIELDS_AT, FIELDS_AT + TRAFFIC_FIELDS - SACCH_FIELDS), 4 + SACCH_FIELDS);
    return octets;
  }

  take(frame, burst = null) {
    const m = this.#machine;
    const number = frameOf(frame);
    if (burst !== null) putSoft(m.signed, m.second, "burst", burst, 148);
    m.octets.set(this.#state, m.input);
    const call =
      burst === null
        ? () => m.call("um_traffic_miss", m.INPUT, number, m.OUTPUT)
        : () => m.call("um_traffic_take", m.INPUT, number, m.SECOND, m.OUTPUT);
    const { blocks, answer } = this.#blocks(call);
    if (answer === 3) refuse128("burst", burst, 148);
    // of a block that ended before this frame its burst is not to blame
    if (burst !== null && answer === 1 && blocks.at(-1).bursts && areHardBits(blocks.at(-1).bursts)) refuseHardBits("burst");
    this.#state.set(m.octets.subarray(m.input, m.input + TRAFFIC));
    return blocks;
  }

  end() {
    const m = this.#machine;
    m.octets.set(this.#state, m.input);
    const { blocks } = this.#blocks(() => m.call("um_traffic_end", m.INPUT, m.OUTPUT));
    // the receiver of SACCH is the first part of the state
    if (m.call("um_slot_end", m.INPUT, m.OUTPUT) === 1) blocks.push({ kind: "sacch", ...blockAt(m) });
    this.#state.set(m.octets.subarray(m.input, m.input + TRAFFIC));
    return blocks;
  }

  restart() {
    const m = this.#machine;
    m.octets.set(this.#state, m.input);
    m.told("um_traffic_restart", m.INPUT);
    this.#state.set(m.octets.subarray(m.input, m.input + TRAFFIC));
  }

  // calls as long as a block ended before the frame
  #blocks(call) {
    const m = this.#machine;
    const blocks = [];
    for (;;) {
      const answer = call();
      if (answer >= 4) throw new Refused({ 4: "notraffic", 6: "doubled", 7: "late" }[answer]);
      if (answer === 1 || answer === 2) blocks.push(this.#block());
      if (answer !== 2) return { blocks, answer };
    }
  }

  #block() {
    const m = this.#machine;
    const kind = TRAFFIC_KINDS[m.octets[m.output + KIND]];
    if (kind === "sacch") return { kind, ...blockAt(m) };
    const bursts = m.signed.slice(m.output + KIND + 1, m.output + KIND + 593);
    const erasure = erasureAt(m, m.output + ERASURE, this.#state[CHANNEL] === 0 ? 8 : 6);
    return { kind, ...blockAt(m), erasure, flags: m.view.getInt32(m.output + FLAGS, true), bursts };
  }
}

export const newTraffic = (m, channel, { direction = "downlink", timeslot = 0, words = 1, erasures = 0, limit = LIMIT }) => {
  const numbers = [...numbersOf(channel, direction), integer("timeslot", timeslot, 0, 7), integer("words", words, 1, 64)];
  const most = integer("limit", limit, 0, LIMIT);
  m.octets.fill(0, m.input, m.input + TRAFFIC);
  m.told("um_traffic_new", m.INPUT, ...numbers, integer("erasures", erasures, 0, 4));
  const state = m.copy(m.input, TRAFFIC);
  state[LIMIT_AT] = most;
  return new Traffic(m, state);
};

export const trafficFromBytes = (m, values) => {
  const octets = octetsOf("octets", restoredHead("C", octetsOf("octets", values)), 4 + TRAFFIC_FIELDS);
  const state = new Uint8Array(TRAFFIC);
  state.set(octets.subarray(4, 4 + SACCH_FIELDS));
  state.set(octets.subarray(4 + SACCH_FIELDS), FIELDS_AT);
  // a call on a copy tests the state
  m.octets.set(state, m.input);
  if (m.call("um_traffic_end", m.INPUT, m.OUTPUT) === NO_STATE.traffic) throw new Refused("notraffic");
  return new Traffic(m, state);
};

export class TrafficSender {
  #machine;
  #state;

  constructor(machine, state) {
    this.#machine = machine;
    this.#state = state;
  }

  get channel() {
    return TRAFFIC_CHANNELS[this.#state[4]];
  }
  copy() {
    return new TrafficSender(this.#machine, this.#state.slice());
  }
  toBytes() {
    const octets = new Uint8Array(4 + SENDER_FIELDS);
    octets.set(headOf("O"));
    octets.set(this.#state.subarray(0, SENDER_FIELDS), 4);
    return octets;
  }

  facch(octets) {
    putOctets(this.#machine.octets, this.#machine.second, "octets", octets, 23);
    return this.#call("um_traffic_sender_facch", this.#machine.SECOND) !== 0;
  }
  speech(block) {
    this.#machine.octets.set(bitRows("block", block, 4), this.#machine.second);
    return this.#call("um_traffic_sender_speech", this.#machine.SECOND) !== 0;
  }
  burst(frame) {
    const m = this.#machine;
    const answer = this.#call("um_traffic_sender_burst", frameOf(frame), m.OUTPUT);
    if (answer === 5) throw new Refused("late");
    return answer === 0 ? m.copy(m.output, 148) : null;
  }

  #call(name, ...values) {
    const m = this.#machine;
    m.octets.set(this.#state, m.input);
    const answer = m.call(name, m.INPUT, ...values);
    this.#state.set(m.octets.subarray(m.input, m.input + SENDER));
    return answer;
  }
}

export const newTrafficSender = (m, channel, { direction = "downlink", tsc = 0 }) => {
  const numbers = [...numbersOf(channel, direction), integer("tsc", tsc, 0, 7)];
  m.octets.fill(0, m.input, m.input + SENDER);
  m.told("um_traffic_sender_new", m.INPUT, ...numbers);
  return new TrafficSender(m, m.copy(m.input, SENDER));
};

export const trafficSenderFromBytes = (m, values) => {
  const octets = octetsOf("octets", restoredHead("O", octetsOf("octets", values)), 4 + SENDER_FIELDS);
  const state = new Uint8Array(SENDER);
  state.set(octets.subarray(4));
  m.octets.set(state, m.input);
  if (m.call("um_traffic_sender_burst", m.INPUT, 0, m.OUTPUT) === NO_STATE.sender) throw new Refused("notraffic");
  return new TrafficSender(m, state);
};
