// slot.mjs - a receiver of one time slot, and blocks that are decoded again with one of their bursts erased.
import { areHardBits, integer, octetsOf, putSoft, refuse128, refuseHardBits } from "./arguments.mjs";
import { restoredHead } from "./ends.mjs";
import { combined, frameOf, FRAMES, placeFrame } from "./tdma.mjs";
import { COMBINATIONS, DIRECTIONS, LOGICAL_CHANNELS, Refused } from "./words.mjs";

// um_slot: two frame numbers, six numbers, the bursts, the limit, and an octet of padding
const FIELDS = 607;
const LIMIT_AT = 606;
// all wrong training bits of three bursts: no limit
export const LIMIT = 78;
const SETTINGS = 8;
const BURSTS = 14;
export const SLOT = 608;

const erasureAt = (m, at) => ({
  erased: m.octets[at] === 4 ? null : m.octets[at],
  wrongTraining: Array.from(m.octets.subarray(at + 1, at + 5)),
});

export const receiveBlockErasing = (m, bursts, most, erasures) => {
  const numbers = [integer("most", most, 1, 64), integer("erasures", erasures, 0, 4)];
  m.receive("um_receive_block_erasing", "bursts", bursts, 592, ...numbers, m.OUTPUT, m.BESIDE, m.BESIDE + 8n);
  return { ...m.blockReport(), rank: m.view.getUint32(m.beside, true), erasure: erasureAt(m, m.beside + 8) };
};

export const detectTraining = (m, bursts) => {
  m.receive("um_detect_training", "bursts", bursts, 592, m.BESIDE, m.BESIDE + 8n);
  return { tsc: m.octets[m.beside], wrongTraining: Array.from(m.octets.subarray(m.beside + 8, m.beside + 12)) };
};

// the block of a um_slot_block in the output
export const blockAt = (m) => {
  const at = m.output + 276;
  return {
    ...m.blockReport(),
    rank: m.view.getUint32(m.output + 268, true),
    first: m.view.getUint32(m.output + 272, true),
    channel: LOGICAL_CHANNELS[m.octets[at]],
    subchannel: m.octets[at + 1],
    heard: m.octets[at + 2],
    erasure: erasureAt(m, at + 3),
  };
};

export class Slot {
  #machine;
  #state;

  constructor(machine, state) {
    this.#machine = machine;
    this.#state = state;
  }

  get combination() {
    return COMBINATIONS[this.#state[SETTINGS]];
  }
  get direction() {
    return DIRECTIONS[this.#state[SETTINGS + 1]];
  }
  get limit() {
    return this.#state[LIMIT_AT];
  }
  get timeslot() {
    return this.#state[SETTINGS + 2];
  }
  copy() {
    return new Slot(this.#machine, this.#state.slice());
  }
  toBytes() {
    const octets = new Uint8Array(4 + FIELDS);
    octets.set([0x75, 0x6d, 0x54, 0x32]);
    octets.set(this.#state.subarray(0, FIELDS), 4);
    return octets;
  }

  take(frame, burst = null) {
    const m = this.#machine;
    const number = frameOf(frame);
    if (burst !== null) putSoft(m.signed, m.second, "burst", burst, 148);
    m.octets.set(this.#state, m.input);
    const answer =
      burst === null ? m.call("um_slot_miss", m.INPUT, number, m.OUTPUT) : m.call("um_slot_take", m.INPUT, number, m.SECOND, m.OUTPUT);
    if (answer === 2) refuse128("burst", burst, 148);
    if (answer > 2) throw new Refused({ 3: "noslot", 5: "doubled", 6: "late" }[answer]);
    const state = m.copy(m.input, SLOT);
    const block = answer === 1 ? blockAt(m) : null;
    if (block && burst !== null && this.#isHard(block, frame)) refuseHardBits("burst");
    this.#state.set(state);
    return block;
  }

  end() {
    const m = this.#machine;
    m.octets.set(this.#state, m.input);
    const block = m.call("um_slot_end", m.INPUT, m.OUTPUT) === 1 ? blockAt(m) : null;
    this.#state.set(m.octets.subarray(m.input, m.input + SLOT));
    return block;
  }
  restart() {
    const m = this.#machine;
    m.octets.set(this.#state, m.input);
    m.told("um_slot_restart", m.INPUT);
    this.#state.set(m.octets.subarray(m.input, m.input + SLOT));
  }

  // Whether a block that the burst of this frame completed is of hard bits, those of the state before and this burst. If the frame is of a
  // later block, its burst is not to blame, and if it were refused, so would be every later one.
  #isHard({ first }, frame) {
    const m = this.#machine;
    const burst = m.signed.slice(m.second, m.second + 148);
    if (burst.some((value) => value !== 0 && value !== 1)) return false;
    const place = placeFrame(m, this.combination, this.direction, this.timeslot, frame);
    if (!place || place.first !== first) return false;
    const soft = new Int8Array(592);
    const before = new DataView(this.#state.buffer, this.#state.byteOffset).getUint32(4, true);
    if (before === first) soft.set(new Int8Array(this.#state.subarray(BURSTS, LIMIT_AT)));
    soft.set(burst, 148 * place.burst);
    return areHardBits(soft);
  }
}

export const newSlot = (m, combination, { direction = "downlink", timeslot = 0, words = 1, erasures = 0, limit = LIMIT }) => {
  const numbers = [...combined(combination, direction, timeslot), integer("words", words, 1, 64), integer("erasures", erasures, 0, 4)];
  const most = integer("limit", limit, 0, LIMIT);
  if (combination === "tch_h") {
    const even = timeslot & 6;
    const wanted = `for subchannel 0 or 1 expected "tch_f" with time slot ${even} or ${even + 1}, or a Traffic`;
    throw new RangeError(`combination is "tch_h"; ${wanted}`);
  }
  m.octets.fill(0, m.input, m.input + SLOT);
  m.told("um_slot_new", m.INPUT, ...numbers);
  const state = m.copy(m.input, SLOT);
  state[LIMIT_AT] = most;
  return new Slot(m, state);
};

export const slotFromBytes = (m, values) => {
  const octets = octetsOf("octets", restoredHead("T", octetsOf("octets", values), "2"), 4 + FIELDS);
  const state = new Uint8Array(SLOT);
  state.set(octets.subarray(4));
  const last = new DataView(state.buffer).getUint32(0, true);
  // a call on a copy tests the state
  m.octets.set(state, m.input);
  if (m.call("um_slot_miss", m.INPUT, (last + 1) % FRAMES, m.OUTPUT) === 3) throw new Refused("noslot");
  return new Slot(m, state);
};
