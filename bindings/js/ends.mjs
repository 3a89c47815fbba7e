// ends.mjs - endpoints and sides: a state as the library lays it out, and the calls on it.
import { octetsOf, place, putOctets } from "./arguments.mjs";
import { CHANNELS, REFUSALS, Refused, ROLES, SAPIS, STATES } from "./words.mjs";

// A um_end has 2,581 octets of fields and three of padding; the saved form has no padding, after a head of four octets.
export const END = 2584;
const FIELDS = 2581;
const HEAD = 4;

export const headOf = (letter, version = "1") => Uint8Array.of(0x75, 0x6d, letter.charCodeAt(0), version.charCodeAt(0));
const textOf = (octets) => JSON.stringify(String.fromCharCode(...octets));

// the saved form of a state of some links
export const saved = (letter, state) => {
  const links = state.length / END;
  const octets = new Uint8Array(HEAD + links * FIELDS);
  octets.set(headOf(letter));
  for (let i = 0; i < links; i++) octets.set(state.subarray(i * END, i * END + FIELDS), HEAD + i * FIELDS);
  return octets;
};

// tests the head of a saved form, and returns the octets
export const restoredHead = (letter, octets, version) => {
  const head = headOf(letter, version);
  if (head.every((octet, i) => octets[i] === octet)) return octets;
  throw new RangeError(`octets begins with ${textOf(octets.subarray(0, HEAD))}; expected ${textOf(head)}, as toBytes() writes it`);
};

// the state of some links from its saved form; the library tests the state afterwards
export const restored = (letter, links, values) => {
  const octets = restoredHead(letter, octetsOf("octets", values, HEAD + links * FIELDS));
  const state = new Uint8Array(links * END);
  for (let i = 0; i < links; i++) state.set(octets.subarray(HEAD + i * FIELDS, HEAD + (i + 1) * FIELDS), i * END);
  return state;
};

export const sapiOf = (sapi) => SAPIS[place("sapi", sapi, SAPIS)];

// The state of an endpoint or a side, and the calls that change it.
class State {
  #machine;
  #state;

  constructor(machine, state) {
    this.#machine = machine;
    this.#state = state;
  }

  copy() {
    return new this.constructor(this.#machine, this.#state.slice());
  }

  _machine() {
    return this.#machine;
  }
  _octets(from, to) {
    return this.#state.subarray(from, to);
  }
  // copies the state into the module's memory, and calls
  _try(name, ...values) {
    const m = this.#machine;
    m.octets.set(this.#state, m.input);
    return m.call(name, m.INPUT, ...values, m.OUTPUT);
  }
  _call(name, ...values) {
    const answer = this._try(name, ...values);
    if (answer) throw new Refused(REFUSALS[answer - 1]);
    const m = this.#machine;
    this.#state.set(m.octets.subarray(m.input, m.input + this.#state.length));
    return m.effects();
  }
  // a call with a message after other values
  _send(name, octets, ...values) {
    this.#machine.putMessage("octets", octets);
    return this._call(name, ...values, this.#machine.SECOND);
  }
  _put(octets) {
    putOctets(this.#machine.octets, this.#machine.second, "octets", octets, 23);
    return this.#machine.SECOND;
  }
}

export class End extends State {
  get role() {
    return ROLES[this._octets(8)[0]];
  }
  get sapi() {
    return this._octets(9)[0];
  }
  get channel() {
    return CHANNELS[this._octets(10)[0]];
  }
  get state() {
    return STATES[this._octets(11)[0]];
  }
  get variables() {
    const octets = this._octets(0, 20);
    const [retries, vs, va, vr, repeats, rejecting, , held] = octets.subarray(12);
    const done = new DataView(octets.buffer, octets.byteOffset).getBigUint64(0, true);
    return { vs, va, vr, retries: this.state === "open" ? repeats : retries, rejecting: rejecting !== 0, held, done };
  }
  get timerRuns() {
    return this._try("um_end_timer") === 0;
  }
  toBytes() {
    return saved("E", this._octets());
  }

  open(info) {
    return this._send("um_end_open", info);
  }
  openBare() {
    return this._call("um_end_open_bare");
  }
  send(octets) {
    return this._send("um_end_send", octets);
  }
  unit(octets) {
    return this._send("um_end_unit", octets);
  }
  close() {
    return this._call("um_end_close");
  }
  timer() {
    return this._call("um_end_timer");
  }
  idle() {
    return this._call("um_end_idle");
  }
  take(octets) {
    return this._call("um_end_take", this._put(octets));
  }
}

export class Side extends State {
  get role() {
    return ROLES[this._octets(8)[0]];
  }
  get channel() {
    return CHANNELS[this._octets(10)[0]];
  }
  end(sapi) {
    const at = END * place("sapi", sapi, SAPIS);
    return new End(this._machine(), this._octets(at, at + END).slice());
  }
  timerRuns(sapi) {
    return this._try("um_side_timer", sapiOf(sapi)) === 0;
  }
  toBytes() {
    return saved("S", this._octets());
  }

  open(info) {
    return this._send("um_side_open", info);
  }
  openBare() {
    return this._call("um_side_open_bare");
  }
  send(sapi, octets) {
    return this._send("um_side_send", octets, sapiOf(sapi));
  }
  unit(sapi, octets) {
    return this._send("um_side_unit", octets, sapiOf(sapi));
  }
  close(sapi) {
    return this._call("um_side_close", sapiOf(sapi));
  }
  timer(sapi) {
    return this._call("um_side_timer", sapiOf(sapi));
  }
  idle() {
    return this._call("um_side_idle");
  }
  take(octets) {
    const m = this._machine();
    const effects = this._call("um_side_take", this._put(octets), m.BESIDE);
    return { ...effects, sapi: m.octets[m.beside] };
  }
}
