// machine.mjs - one instance of um.wasm and its memory.
import { putFirstOctets, putSoft, refuse128, refuseHardBits } from "./arguments.mjs";
import { NOTICES, REASONS } from "./words.mjs";

// sizes of the structs of um.h, in octets
const NOTICE = 272;
const INPUT = 5376;
const SECOND = 640;
const OUTPUT = 896;
const BESIDE = 64;

// An instance never allocates or grows memory, so the memory after __heap_base is free to use and the views stay valid.
export class Machine {
  #module;
  #exports;

  constructor(module, instance) {
    this.#module = module;
    this.#begin(instance);
  }

  #begin(instance) {
    const { memory, __heap_base: base } = (this.#exports = instance.exports);
    this.input = (Number(base.value) + 63) & ~63;
    this.second = this.input + INPUT;
    this.output = this.second + SECOND;
    this.beside = this.output + OUTPUT;
    if (memory.buffer.byteLength < this.beside + BESIDE) throw new Error("um.wasm has too little memory after its heap base");
    this.octets = new Uint8Array(memory.buffer);
    this.signed = new Int8Array(memory.buffer);
    this.words = new Int32Array(memory.buffer);
    this.view = new DataView(memory.buffer);
    [this.INPUT, this.SECOND, this.OUTPUT, this.BESIDE] = [this.input, this.second, this.output, this.beside].map(BigInt);
  }

  get exports() {
    return this.#exports;
  }

  // An instance that trapped would trap in every later call, so it is replaced.
  call(name, ...values) {
    try {
      return this.#exports[name](...values);
    } catch (cause) {
      this.#begin(new WebAssembly.Instance(this.#module));
      throw new Error(`${name} trapped in WebAssembly (${cause.message}); the instance was discarded`, { cause });
    }
  }

  // for a call that refuses nothing once the arguments are tested
  told(name, ...values) {
    if (!this.call(name, ...values)) throw new Error(`${name} refused arguments that the package had tested`);
  }

  // a call on `count` soft bits, which refuses only -128 once the other arguments are tested
  receive(call, name, values, count, ...others) {
    this.putSoft(name, values, count);
    this.decode(call, name, values, count, ...others);
  }

  putSoft(name, values, count) {
    putSoft(this.signed, this.input, name, values, count);
    if (this.#areHardBits(count)) refuseHardBits(name);
  }

  decode(call, name, values, count, ...others) {
    if (!this.call(call, this.INPUT, ...others)) refuse128(name, values, count);
  }

  // values that are all 0 or 1, with a 1 among them, are hard bits passed by mistake; four octets at a time
  #areHardBits(count) {
    const first = this.input >> 2;
    let ones = 0;
    for (let at = first; at < first + count / 4; at++) {
      const four = this.words[at];
      if (four & ~0x01010101) return false;
      ones |= four;
    }
    return ones !== 0;
  }

  copy(at, count) {
    return this.octets.slice(at, at + count);
  }

  // the fields common to the three reports; `at` is the offset of `accepted`
  report(at, data, word) {
    const { view, output, octets } = this;
    const from = output + at + 1;
    return {
      accepted: octets[from - 1] ? octets.slice(from, from + data) : null,
      metric: view.getInt32(output, true),
      wrongTraining: view.getUint32(output + 4, true),
      wrongCoded: view.getUint32(output + 8, true),
      word: octets.slice(from + data, from + data + word),
    };
  }

  blockReport() {
    const report = this.report(13, 23, 228);
    report.tsc = this.octets[this.output + 12];
    return report;
  }

  // writes a um_message, cut at 255 octets, which the library refuses as too long
  putMessage(name, octets) {
    this.octets[this.second] = putFirstOctets(this.octets, this.second + 1, name, octets, 255);
  }

  #notice(at) {
    const kind = NOTICES[this.octets[at + 8] - 1];
    if (kind === "acked") return { kind, number: this.view.getBigUint64(at, true) };
    if (kind === "closed") return { kind, reason: REASONS[this.octets[at + 9]] };
    return kind === "oversize" ? { kind } : { kind, message: this.copy(at + 11, this.octets[at + 10]) };
  }

  // the notices of a um_report, each with its SAPI
  linkNotices() {
    const sapis = this.output + 3 * NOTICE;
    const notice = (_, i) => ({ sapi: this.octets[sapis + i], ...this.#notice(this.output + i * NOTICE) });
    return Array.from({ length: this.octets[sapis + 3] }, notice);
  }

  effects() {
    const at = this.output;
    const counts = at + 3 * NOTICE;
    const notices = Array.from({ length: this.octets[counts] }, (_, i) => this.#notice(at + i * NOTICE));
    const frames = Array.from({ length: this.octets[counts + 1] }, (_, i) => this.copy(counts + 2 + 23 * i, 23));
    return { frames, notices };
  }
}
