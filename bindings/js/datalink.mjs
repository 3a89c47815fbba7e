// datalink.mjs - one side of a channel with its loop.
import { integer, membersOf, octetsOf, place, putOctets } from "./arguments.mjs";
import { END, End, headOf, restoredHead, sapiOf } from "./ends.mjs";
import { CHANNELS, ESTABLISHMENTS, FAULTS, REFUSALS, Refused, ROLES, STATES } from "./words.mjs";

// um_datalink: two um_timed_end, each a um_end with padding, 28 octets more and padding; two octets; and padding
const TIMED = 2616;
const DATALINK = 2 * TIMED + 8;
const PARTS = [0, TIMED].flatMap((at) => [
  [at, at + 2581],
  [at + END, at + END + 28],
]);
PARTS.push([2 * TIMED, 2 * TIMED + 2]);
const OCTETS = PARTS.reduce((sum, [from, to]) => sum + to - from, 4);
const OWED = END + 3;
const VERSION = "2";
const FREE = 10;

export class DataLink {
  #machine;
  #state;

  constructor(machine, state) {
    this.#machine = machine;
    this.#state = state;
  }

  get role() {
    return ROLES[this.#state[8]];
  }
  get channel() {
    return CHANNELS[this.#state[10]];
  }
  get establishment() {
    return ESTABLISHMENTS[this.#state[9] === 3 ? 1 : 0];
  }
  state(sapi) {
    return STATES[this.#state[11 + (sapiOf(sapi) ? TIMED : 0)]];
  }
  end(sapi) {
    const at = sapiOf(sapi) ? TIMED : 0;
    return new End(this.#machine, this.#state.slice(at, at + END));
  }
  get idle() {
    const waits = (at) => this.#state[at + OWED] !== 0 || new End(this.#machine, this.#state.slice(at, at + END)).timerRuns;
    return !waits(0) && !waits(TIMED);
  }
  copy() {
    return new DataLink(this.#machine, this.#state.slice());
  }
  toBytes() {
    const octets = new Uint8Array(OCTETS);
    octets.set(headOf("L", VERSION));
    PARTS.reduce((at, [from, to]) => (octets.set(this.#state.subarray(from, to), at), at + to - from), 4);
    return octets;
  }

  open(info) {
    this.#send("um_datalink_open", info);
  }
  establish(sapi) {
    this.#call("um_datalink_establish", sapiOf(sapi));
  }
  openBare() {
    this.#call("um_datalink_establish", 3);
  }
  send(sapi, octets) {
    this.#send("um_datalink_send", octets, sapiOf(sapi));
  }
  unacked(sapi) {
    const m = this.#machine;
    const number = sapiOf(sapi);
    const messages = [];
    m.octets.set(this.#state, m.input);
    while (m.call("um_datalink_unacked", m.INPUT, number, messages.length, m.SECOND) === 0) {
      messages.push(m.copy(m.second + 1, m.octets[m.second]));
    }
    return messages;
  }
  unit(sapi, octets, layer1 = [0, 0]) {
    const m = this.#machine;
    const two = octetsOf("layer1", layer1, 2);
    m.putMessage("octets", octets);
    m.octets.set(two, m.beside + 32);
    this.#call("um_datalink_unit", sapiOf(sapi), m.SECOND, m.BESIDE + 32n, m.BESIDE);
    return m.copy(m.beside, 23);
  }
  close(sapi) {
    this.#call("um_datalink_close", sapiOf(sapi));
  }
  closeLocal(sapi) {
    this.#call("um_datalink_close_local", sapiOf(sapi));
  }
  main(established) {
    this.#call("um_datalink_main", established ? 1 : 0);
  }
  take(block) {
    const m = this.#machine;
    putOctets(m.octets, m.second, "block", block, 23);
    this.#call("um_datalink_take", m.SECOND, m.OUTPUT);
    return m.linkNotices();
  }
  fault(block) {
    const m = this.#machine;
    putOctets(m.octets, m.second, "block", block, 23);
    m.octets.set(this.#state, m.input);
    const found = m.call("um_datalink_fault", m.INPUT, m.SECOND);
    return found === 0 ? null : FAULTS[found - 1];
  }
  next(layer1 = [0, 0]) {
    const m = this.#machine;
    putOctets(m.octets, m.second, "layer1", layer1, 2);
    const answer = this.#call("um_datalink_next", m.SECOND, m.BESIDE, m.OUTPUT);
    return { block: m.copy(m.beside, 23), free: answer === FREE, notices: m.linkNotices() };
  }

  #send(name, octets, ...values) {
    this.#machine.putMessage("octets", octets);
    this.#call(name, ...values, this.#machine.SECOND);
  }
  #call(name, ...values) {
    const m = this.#machine;
    m.octets.set(this.#state, m.input);
    const answer = m.call(name, m.INPUT, ...values);
    if (answer !== 0 && answer !== FREE) throw new Refused(REFUSALS[answer - 1], this.#why(name, answer, values[0]));
    this.#state.set(m.octets.subarray(m.input, m.input + DATALINK));
    return answer;
  }
  // what a refusal has to say of this data link; otherwise the words of the reason
  #why(name, answer, sapi) {
    if (name === "um_datalink_open" && REFUSALS[answer - 1] === "nocall") {
      const who = this.role === "network" ? "the network" : "a link of normal establishment";
      return `open is for a mobile, by contention; ${who} is opened with establish(0)`;
    }
    if (name !== "um_datalink_establish") return undefined;
    return `the link is ${this.state(sapi)}; establish expects one that is idle, open or closed`;
  }
}

export class LastAnswer {
  #machine;
  #said = new Uint8Array(24);
  constructor(machine) {
    this.#machine = machine;
  }
  next(link, layer1 = [0, 0]) {
    const sent = link.next(layer1);
    const m = this.#machine;
    m.octets.set(this.#said, m.input);
    m.octets.set(sent.block, m.second);
    const answer = m.call("um_say_again", m.INPUT, CHANNELS.indexOf(link.channel), sent.free ? FREE : 0, m.SECOND);
    this.#said = m.copy(m.input, 24);
    return { ...sent, block: m.copy(m.second, 23), free: answer === FREE };
  }
}

export const newLastAnswer = (machine) => new LastAnswer(machine);

export const newDataLink = (m, role, options) => {
  const names = ["channel", "t200", "t200Sapi3", "establishment"];
  const { channel = "sdcch", t200 = 4, t200Sapi3, establishment = "contention" } = membersOf("options", options, names);
  const first = integer("t200", t200, 1, 255);
  const third = t200Sapi3 === undefined ? Math.min(first + 2, 255) : integer("t200Sapi3", t200Sapi3, 1, 255);
  m.octets.fill(0, m.input, m.input + DATALINK);
  const kind = place("establishment", establishment, ESTABLISHMENTS);
  m.told("um_datalink_new_for", m.INPUT, place("role", role, ROLES), place("channel", channel, CHANNELS), kind, first, third);
  return new DataLink(m, m.copy(m.input, DATALINK));
};

export const dataLinkFromBytes = (m, values) => {
  const octets = octetsOf("octets", restoredHead("L", octetsOf("octets", values), VERSION), OCTETS);
  const state = new Uint8Array(DATALINK);
  PARTS.reduce((at, [from, to]) => (state.set(octets.subarray(at, at + to - from), from), at + to - from), 4);
  m.octets.set(state, m.input);
  if (!m.call("um_datalink_valid", m.INPUT)) throw new Refused("noend");
  return new DataLink(m, state);
};
