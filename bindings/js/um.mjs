// um.mjs - GSM's dedicated signalling link for JavaScript: blocks, bursts, LAPDm frames and endpoints, by the proved library libum_c,
// compiled to WebAssembly (um.wasm). The calls are those of um.h; um.d.ts describes them.
//
//   import { load, softFromBits } from "um-gsm";
//   const um = await load();
//   const octets = um.writeFrame({ kind: "i", ns: 5, nr: 2, info: [6, 1] });
//   const bursts = um.sendBlock(octets, 7); // 592 bits, four bursts of 148
//   const report = um.receiveBlock(softFromBits(bursts)); // report.accepted holds the 23 octets

import { bitsOf, integer, membersOf, octetsOf, place, putBits, putOctets, shown } from "./arguments.mjs";
import { END, End, restored, Side } from "./ends.mjs";
import { dataLinkFromBytes, newDataLink, newLastAnswer } from "./datalink.mjs";
import { Machine } from "./machine.mjs";
import { detectTraining, newSlot, receiveBlockErasing, slotFromBytes } from "./slot.mjs";
import {
  cipherBits, joinFacch, newTraffic, newTrafficSender, nextFacch, placeTraffic, receiveFacchErasing, softCipher, stealFacch, stealingFlags,
  trafficFromBytes, trafficSenderFromBytes,
} from "./traffic.mjs";
import { frameOfTime, nextBlock, placeFrame, readBsic, readRa, readSch, timeOfFrame, writeBsic, writeRa, writeSch } from "./tdma.mjs";
import { CHANNELS, KINDS, Refused, ROLES, SAPIS, UNREAD, VERSION } from "./words.mjs";

export { softFromBits, softFromLlr, softFromSbits, softFromTrx } from "./arguments.mjs";
export { CHANNELS, ESTABLISHMENTS, FAULTS, KINDS, NOTICES, REASONS, REFUSALS, Refused, ROLES, STATES, UNREAD } from "./words.mjs";
export { COMBINATIONS, DIRECTIONS, LOGICAL_CHANNELS, SLOT_REFUSALS } from "./words.mjs";
export { TRAFFIC_CHANNELS, TRAFFIC_KINDS, TRAFFIC_REFUSALS, VERSION } from "./words.mjs";
export { End, Side } from "./ends.mjs";
export { DataLink, LastAnswer } from "./datalink.mjs";
export { Slot } from "./slot.mjs";
export { Traffic, TrafficSender } from "./traffic.mjs";
export { FRAMES } from "./tdma.mjs";

const FRAME = 28;
const BLOCK_OCTETS = 23;
const BLOCK_BITS = 592;

export class Um {
  #machine;

  constructor(module, instance = new WebAssembly.Instance(module)) {
    this.#machine = new Machine(module, instance);
  }

  get exports() {
    return this.#machine.exports;
  }

  version() {
    return versionOf(this.exports);
  }

  sendBlock(octets, tsc) {
    const m = this.#machine;
    putOctets(m.octets, m.input, "octets", octets, BLOCK_OCTETS);
    m.told("um_send_block", m.INPUT, integer("tsc", tsc, 0, 7), m.OUTPUT);
    return m.copy(m.output, BLOCK_BITS);
  }

  receiveBlock(bursts) {
    const m = this.#machine;
    m.receive("um_receive_block", "bursts", bursts, BLOCK_BITS, m.OUTPUT);
    return m.blockReport();
  }

  receiveBlockAmong(bursts, most) {
    const m = this.#machine;
    m.receive("um_receive_block_among", "bursts", bursts, BLOCK_BITS, integer("most", most, 1, 64), m.OUTPUT, m.BESIDE);
    const report = m.blockReport();
    report.rank = m.view.getUint32(m.beside, true);
    return report;
  }

  marginBlock(bursts) {
    const m = this.#machine;
    m.receive("um_margin_block", "bursts", bursts, BLOCK_BITS, m.OUTPUT);
    return { margin: m.view.getInt32(m.output, true), word: m.copy(m.output + 4, 228), next: m.copy(m.output + 232, 228) };
  }

  receiveBlockErasing(bursts, most, erasures) {
    return receiveBlockErasing(this.#machine, bursts, most, erasures);
  }

  detectTraining(bursts) {
    return detectTraining(this.#machine, bursts);
  }

  repair(word) {
    const m = this.#machine;
    putBits(m.octets, m.input, "word", word, 224);
    const answer = m.call("um_repair", m.INPUT, m.OUTPUT);
    if (answer === 0) return { word: m.copy(m.input, 224), first: 0, span: 0 };
    if (answer === 2) return null;
    return { word: m.copy(m.output + 2, 224), first: m.octets[m.output], span: m.octets[m.output + 1] };
  }

  sendAccess(info, bsic) {
    const m = this.#machine;
    const bits = bitsOf("info", info, 8);
    putBits(m.octets, m.second, "bsic", bsic, 6);
    m.octets.set(bits, m.input);
    m.told("um_send_access", m.INPUT, m.SECOND, m.OUTPUT);
    return m.copy(m.output, 88);
  }

  receiveAccess(burst, bsic) {
    const m = this.#machine;
    const code = bitsOf("bsic", bsic, 6);
    m.putSoft("burst", burst, 88);
    m.octets.set(code, m.second);
    m.decode("um_receive_access", "burst", burst, 88, m.SECOND, m.OUTPUT);
    return m.report(12, 8, 18);
  }

  sendSync(info) {
    const m = this.#machine;
    putBits(m.octets, m.input, "info", info, 25);
    m.told("um_send_sync", m.INPUT, m.OUTPUT);
    return m.copy(m.output, 148);
  }

  receiveSync(burst) {
    const m = this.#machine;
    m.receive("um_receive_sync", "burst", burst, 148, m.OUTPUT);
    return m.report(12, 25, 39);
  }

  readFrame(octets, channel = "sdcch") {
    const m = this.#machine;
    putOctets(m.octets, m.input, "octets", octets, BLOCK_OCTETS);
    const answer = m.call("um_read_frame", m.INPUT, place("channel", channel, CHANNELS), m.OUTPUT);
    if (answer) return { unread: UNREAD[answer - 1] };
    const [kind, sapi, cr, pf, ns, nr, more, count] = m.octets.subarray(m.output, m.output + 8);
    return { kind: KINDS[kind], sapi, cr, pf, ns, nr, more, info: m.copy(m.output + 8, count) };
  }

  writeFrame(frame, channel = "sdcch") {
    const m = this.#machine;
    const members = ["kind", "sapi", "cr", "pf", "ns", "nr", "more", "info"];
    const { kind, sapi = 0, cr = 0, pf = 0, ns = 0, nr = 0, more = 0, info = [] } = membersOf("frame", frame, members);
    const at = place("channel", channel, CHANNELS);
    const octets = octetsOf("frame.info", info);
    const bit = (name, value) => (typeof value === "boolean" ? Number(value) : integer(name, value, 0, 1));
    const fields = [
      ...[place("frame.kind", kind, KINDS), integer("frame.sapi", sapi, 0, 7), bit("frame.cr", cr), bit("frame.pf", pf)],
      ...[integer("frame.ns", ns, 0, 7), integer("frame.nr", nr, 0, 7), bit("frame.more", more), octets.length],
    ];
    const most = /^(i|sabm|ui|ua)$/.test(kind) ? 20 - 2 * at : 0;
    const least = kind === "i" ? 1 : 0;
    if (octets.length < least || octets.length > most) {
      throw new RangeError(`frame.info has ${octets.length} octets; expected ${least} to ${most} in a frame "${kind}" on "${channel}"`);
    }
    m.octets.fill(0, m.input, m.input + FRAME);
    m.octets.set(fields, m.input);
    m.octets.set(octets, m.input + 8);
    m.told("um_write_frame", m.INPUT, at, m.OUTPUT);
    return m.copy(m.output, BLOCK_OCTETS);
  }

  readB4(octets) {
    const m = this.#machine;
    putOctets(m.octets, m.input, "octets", octets, BLOCK_OCTETS);
    return m.call("um_read_b4", m.INPUT, m.OUTPUT) ? m.copy(m.output, 19) : null;
  }

  writeB4(info, layer1 = [0, 0]) {
    const m = this.#machine;
    const two = octetsOf("layer1", layer1, 2);
    putOctets(m.octets, m.input, "info", info, 19);
    m.octets.set(two, m.second);
    m.call("um_write_b4", m.SECOND, m.INPUT, m.OUTPUT);
    return m.copy(m.output, BLOCK_OCTETS);
  }

  timeOfFrame(frame) {
    return timeOfFrame(this.#machine, frame);
  }
  frameOfTime(t1, t2, t3) {
    return frameOfTime(this.#machine, t1, t2, t3);
  }
  readSch(info) {
    return readSch(this.#machine, info);
  }
  writeSch(bsic, frame) {
    return writeSch(this.#machine, bsic, frame);
  }
  readRa(info) {
    return readRa(this.#machine, info);
  }
  writeRa(ra) {
    return writeRa(this.#machine, ra);
  }
  readBsic(code) {
    return readBsic(this.#machine, code);
  }
  writeBsic(bsic) {
    return writeBsic(this.#machine, bsic);
  }
  placeFrame(combination, direction, timeslot, frame) {
    return placeFrame(this.#machine, combination, direction, timeslot, frame);
  }
  nextBlock(combination, direction, timeslot, channel, subchannel, frame) {
    return nextBlock(this.#machine, combination, direction, timeslot, channel, subchannel, frame);
  }

  slot(combination, options = {}) {
    return newSlot(this.#machine, combination, membersOf("options", options, ["direction", "timeslot", "words", "erasures", "limit"]));
  }
  traffic(channel, options = {}) {
    return newTraffic(this.#machine, channel, membersOf("options", options, ["direction", "timeslot", "words", "erasures", "limit"]));
  }
  trafficSender(channel, options = {}) {
    return newTrafficSender(this.#machine, channel, membersOf("options", options, ["direction", "tsc"]));
  }
  trafficFromBytes(octets) {
    return trafficFromBytes(this.#machine, octets);
  }
  trafficSenderFromBytes(octets) {
    return trafficSenderFromBytes(this.#machine, octets);
  }
  placeTraffic(channel, direction, frame) {
    return placeTraffic(this.#machine, channel, direction, frame);
  }
  nextFacch(channel, direction, frame) {
    return nextFacch(this.#machine, channel, direction, frame);
  }
  stealFacch(block, bursts) {
    return stealFacch(this.#machine, block, bursts);
  }
  receiveFacchErasing(bursts, most, erasures) {
    return receiveFacchErasing(this.#machine, bursts, most, erasures);
  }
  joinFacch(bursts) {
    return joinFacch(this.#machine, bursts);
  }
  stealingFlags(block) {
    return stealingFlags(this.#machine, block);
  }
  cipherBits(burst, stream) {
    return cipherBits(this.#machine, burst, stream);
  }
  softCipher(burst, stream) {
    return softCipher(this.#machine, burst, stream);
  }
  slotFromBytes(octets) {
    return slotFromBytes(this.#machine, octets);
  }

  dataLink(role, options = {}) {
    return newDataLink(this.#machine, role, options);
  }
  lastAnswer() {
    return newLastAnswer(this.#machine);
  }
  dataLinkFromBytes(octets) {
    return dataLinkFromBytes(this.#machine, octets);
  }

  end(role, options = {}) {
    const m = this.#machine;
    const { sapi = 0, channel = "sdcch" } = membersOf("options", options, ["sapi", "channel"]);
    const numbers = [place("role", role, ROLES), SAPIS[place("sapi", sapi, SAPIS)], place("channel", channel, CHANNELS)];
    m.octets.fill(0, m.input, m.input + END);
    m.told("um_end_new", m.INPUT, ...numbers);
    return new End(m, m.copy(m.input, END));
  }

  side(role, options = {}) {
    const m = this.#machine;
    const { channel = "sdcch" } = membersOf("options", options, ["channel"]);
    const numbers = [place("role", role, ROLES), place("channel", channel, CHANNELS)];
    m.octets.fill(0, m.input, m.input + 2 * END);
    m.told("um_side_new", m.INPUT, ...numbers);
    return new Side(m, m.copy(m.input, 2 * END));
  }

  endFromBytes(octets) {
    const end = new End(this.#machine, restored("E", 1, octets));
    end.idle();
    return end;
  }

  sideFromBytes(octets) {
    const state = restored("S", 2, octets);
    // um_side_idle tests only one of the links, so test each by itself
    for (const at of [0, END]) new End(this.#machine, state.slice(at, at + END)).idle();
    const side = new Side(this.#machine, state);
    side.idle();
    return side;
  }
}

// -- loading --

const isNode = () => Boolean(globalThis.process?.versions?.node);

// the octets of a file in node, or a Response
const fetched = async (url) => {
  const file = url instanceof URL ? url.protocol === "file:" : !/^[a-z][a-z0-9+.-]+:/i.test(url) || /^file:/i.test(url);
  if (!isNode() || !file) return fetch(url);
  // a bundle for browsers has an empty module in its place (package.json)
  const { readFile } = await import("./files.mjs");
  return readFile === undefined ? fetch(url) : readFile(typeof url === "string" && /^file:/i.test(url) ? new URL(url) : url);
};

// Where a bundle lies that has no import.meta, as esbuild makes it in its formats cjs and iife: node's folder, a page's script or a
// Worker's.
const script =
  globalThis.document?.currentScript?.src ?? (typeof globalThis.importScripts === "function" ? globalThis.location?.href : undefined);
const inBundle = () => {
  if (typeof __dirname === "string") return `${__dirname}/um.wasm`;
  if (script) return new URL("./um.wasm", script);
  throw new Error("this bundle does not know where it lies, so um.wasm is not found; make it with --format=esm, or pass load() a URL");
};

const beside = async () => {
  const url = typeof import.meta.url === "undefined" ? inBundle() : new URL("./um.wasm", import.meta.url);
  try {
    return await fetched(url);
  } catch (cause) {
    if (cause.code !== "ENOENT") throw cause;
    throw new Error("um.wasm is not beside um.mjs; in a checkout: cp dist/wasm/um.wasm bindings/js/", { cause });
  }
};

// a module made before there were versions has none
const versionOf = ({ um_version: version }) =>
  version === undefined ? "none" : [1000000, 1000, 1].map((unit) => Math.floor(version() / unit) % 1000).join(".");

const minor = (version) => version.split(".", 2).join(".");

const isOctets = (value) => ArrayBuffer.isView(value) || Object.prototype.toString.call(value).endsWith("ArrayBuffer]");

export const load = async (source) => {
  let from = await (source === undefined ? beside() : source);
  if (typeof from === "string" || from instanceof URL) from = await fetched(from);
  if (typeof Response !== "undefined" && from instanceof Response) {
    if (!from.ok) throw new Error(`um.wasm could not be fetched: ${from.url} answered ${from.status}`);
    from = await from.arrayBuffer();
  }
  if (!(from instanceof WebAssembly.Module) && !isOctets(from)) {
    throw new TypeError(`source is ${shown(from)}; expected a URL, the octets of um.wasm, a Response or a WebAssembly.Module`);
  }
  const module = from instanceof WebAssembly.Module ? from : await WebAssembly.compile(from);
  const instance = await WebAssembly.instantiate(module);
  const found = versionOf(instance.exports);
  if (minor(found) !== minor(VERSION)) {
    throw new Error(`um.wasm has version ${found}; expected ${VERSION}, as um.mjs; in a checkout: cp dist/wasm/um.wasm bindings/js/`);
  }
  return new Um(module, instance);
};
