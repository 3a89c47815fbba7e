// Tests that um.mjs refuses invalid arguments, with messages that state what was expected, and that it discards an instance that trapped.
import assert from "node:assert/strict";
import { load, Refused, softFromBits, softFromLlr, softFromSbits, softFromTrx, Um, VERSION } from "../um.mjs";

const zeros = (count) => new Array(count).fill(0);
const change = (list, at, value) => list.map((old, i) => (i === at ? value : old));

const rowsOf = (bursts) => [0, 1, 2, 3].map((i) => bursts.slice(148 * i, 148 * i + 148));
const holed = (list, at) => {
  const rows = new Array(list.length);
  list.forEach((row, i) => (i === at ? undefined : (rows[i] = row)));
  return rows;
};
const HARD = "bursts has hard bits, each 0 or 1; expected soft bits from -127 to 127, as softFromBits(bits) returns them";
const ROW = "is undefined; expected an array of 148 soft bits";

const WRONG = (um) => [
  [() => um.sendBlock(zeros(22), 0), RangeError, "octets has 22 values; expected 23 octets, integers from 0 to 255"],
  [() => um.sendBlock(new Uint8Array(24), 0), RangeError, "octets has 24 values; expected 23 octets"],
  [() => um.sendBlock("00".repeat(23), 0), TypeError, 'octets is "0000'],
  [() => um.sendBlock(undefined, 0), TypeError, "octets is undefined; expected an array of 23 octets"],
  [() => um.sendBlock(change(zeros(23), 4, 256), 0), RangeError, "octets[4] is 256; expected an integer from 0 to 255"],
  [() => um.sendBlock(change(zeros(23), 4, 0.5), 0), RangeError, "octets[4] is 0.5"],
  [() => um.sendBlock(change(zeros(23), 4, "7"), 0), RangeError, 'octets[4] is "7"'],
  [() => um.sendBlock(zeros(23), 256), RangeError, "tsc is 256; expected an integer from 0 to 7"],
  [() => um.sendBlock(zeros(23), -1), RangeError, "tsc is -1"],
  [() => um.sendBlock(zeros(23)), RangeError, "tsc is undefined"],
  [() => um.sendBlock(zeros(23), 3n), RangeError, "tsc is 3n"],
  [() => um.receiveBlock(zeros(591)), RangeError, "bursts has 591 values; expected 592 soft bits"],
  [() => um.receiveBlock(change(zeros(592), 9, -128)), RangeError, "bursts[9] is -128; expected an integer from -127 to 127"],
  [() => um.receiveBlock(Int8Array.from(change(zeros(592), 9, -128))), RangeError, "bursts[9] is -128"],
  [() => um.receiveBlock(change(zeros(592), 9, 200)), RangeError, "bursts[9] is 200"],
  [() => um.receiveBlock(new Uint8Array(592).fill(200)), RangeError, "bursts[0] is 200"],
  [() => um.receiveBlock([zeros(148), zeros(148), zeros(147), zeros(148)]), RangeError, "bursts[2] has 147 values; expected 148 soft bits"],
  [() => um.receiveBlock([zeros(148)]), RangeError, "bursts has 1 values; expected 592 soft bits"],
  [() => um.receiveBlock(new Float32Array(592).fill(0.25)), RangeError, "bursts[0] is 0.25"],
  [() => um.receiveBlock(um.sendBlock(zeros(23), 1)), RangeError, HARD],
  [() => um.receiveBlock(Int8Array.from(um.sendBlock(zeros(23), 1))), RangeError, HARD],
  [() => um.receiveBlock(rowsOf(um.sendBlock(zeros(23), 1))), RangeError, HARD],
  [() => um.receiveBlockAmong(Array.from(um.sendBlock(zeros(23), 1)), 64), RangeError, HARD],
  [() => um.marginBlock(Int8Array.from(um.sendBlock(zeros(23), 1))), RangeError, HARD],
  [() => um.receiveBlock(change(zeros(592), 591, 1)), RangeError, HARD],
  [() => um.receiveAccess(Int8Array.from(um.sendAccess(zeros(8), zeros(6))), zeros(6)), RangeError, "burst has hard bits"],
  [() => um.receiveSync(Int8Array.from(um.sendSync(zeros(25)))), RangeError, "burst has hard bits"],
  [() => um.receiveBlock(new Array(4)), TypeError, `bursts[0] ${ROW}`],
  [() => um.receiveBlockAmong(holed(rowsOf(zeros(592)), 2), 64), TypeError, `bursts[2] ${ROW}`],
  [() => um.marginBlock(holed(rowsOf(new Int8Array(592)), 3)), TypeError, `bursts[3] ${ROW}`],
  [() => um.receiveSync(new Array(1)), TypeError, `burst[0] ${ROW}`],
  [() => um.receiveBlock(new Array(592)), RangeError, "bursts[0] is undefined"],
  [() => um.receiveBlock(rowsOf(Int8Array.from(change(zeros(592), 300, -128)))), RangeError, "bursts[2][4] is -128"],
  [() => um.end("mobile", 3, "sacch"), TypeError, "options is 3; expected an object"],
  [() => um.end("mobile", { SAPI: 3 }), RangeError, 'options has a member "SAPI"; expected sapi, channel'],
  [() => um.side("mobile", "sacch"), TypeError, 'options is "sacch"; expected an object'],
  [() => um.writeFrame({ kind: "ui", data: [1] }), RangeError, 'frame has a member "data"'],
  [() => um.sideFromBytes(change(Array.from(um.side("mobile").toBytes()), 4 + 2581 + 13, 9)), Refused, "the state is not valid"],
  [() => um.receiveBlockAmong(zeros(592), 0), RangeError, "most is 0; expected an integer from 1 to 64"],
  [() => um.receiveBlockAmong(zeros(592), 65), RangeError, "most is 65"],
  [() => um.receiveBlockAmong(zeros(592), 2 ** 32 + 1), RangeError, "most is 4294967297"],
  [() => um.marginBlock(new DataView(new ArrayBuffer(592))), TypeError, "bursts is DataView of 592; expected an array of 592 soft bits"],
  [() => um.repair(change(zeros(224), 100, 2)), RangeError, "word[100] is 2; expected an integer from 0 to 1"],
  [() => um.repair(new Uint8Array(228)), RangeError, "word has 228 values; expected 224 bits"],
  [() => um.sendAccess(zeros(8), zeros(5)), RangeError, "bsic has 5 values; expected 6 bits"],
  [() => um.sendAccess(change(zeros(8), 0, 2), zeros(6)), RangeError, "info[0] is 2"],
  [() => um.receiveAccess(zeros(88), change(zeros(6), 5, -1)), RangeError, "bsic[5] is -1"],
  [() => um.receiveAccess(zeros(148), zeros(6)), RangeError, "burst has 148 values; expected 88 soft bits"],
  [() => um.sendSync(zeros(24)), RangeError, "info has 24 values; expected 25 bits"],
  [() => um.receiveSync(Int8Array.from(zeros(148).fill(-128))), RangeError, "burst[0] is -128"],
  [() => um.readFrame(zeros(23), "tch"), RangeError, 'channel is "tch"; expected "sdcch" or "sacch"'],
  [() => um.writeFrame("i"), TypeError, 'frame is "i"; expected an object'],
  [() => um.writeFrame({ kind: "xid" }), RangeError, 'frame.kind is "xid"; expected "i" or "rr"'],
  [() => um.writeFrame({ kind: "rr", sapi: 8 }), RangeError, "frame.sapi is 8; expected an integer from 0 to 7"],
  [() => um.writeFrame({ kind: "rr", nr: 256 }), RangeError, "frame.nr is 256"],
  [() => um.writeFrame({ kind: "rr", pf: 2 }), RangeError, "frame.pf is 2; expected an integer from 0 to 1"],
  [() => um.writeFrame({ kind: "i" }), RangeError, 'frame.info has 0 octets; expected 1 to 20 in a frame "i" on "sdcch"'],
  [() => um.writeFrame({ kind: "ui", info: zeros(19) }, "sacch"), RangeError, "frame.info has 19 octets; expected 0 to 18"],
  [() => um.writeFrame({ kind: "rr", info: [1] }), RangeError, "frame.info has 1 octets; expected 0 to 0"],
  [() => um.end("phone"), RangeError, 'role is "phone"; expected "mobile" or "network"'],
  [() => um.end("mobile", { sapi: 256 }), RangeError, "sapi is 256; expected 0 or 3"],
  [() => um.end("mobile", { channel: 0 }), RangeError, "channel is 0"],
  [() => um.end("mobile").take(zeros(22)), RangeError, "octets has 22 values"],
  [() => um.end("mobile").send([300]), RangeError, "octets[0] is 300"],
  [() => um.endFromBytes(zeros(2584)), RangeError, "octets has 2584 values; expected 2585 octets"],
  [() => um.endFromBytes(um.end("mobile").toBytes().fill(0x32, 3, 4)), RangeError, 'octets begins with "umE2"; expected "umE1"'],
  [() => um.sideFromBytes(new Uint8Array(5166)), RangeError, 'octets begins with "\\u0000'],
  [() => um.side("phone"), RangeError, 'role is "phone"'],
  [() => um.side("mobile").send(1, [1]), RangeError, "sapi is 1; expected 0 or 3"],
  [() => um.side("mobile").timer(256), RangeError, "sapi is 256"],
  [() => um.side("mobile").take(zeros(24)), RangeError, "octets has 24 values"],
  [() => um.sideFromBytes(zeros(5168)), RangeError, "octets has 5168 values; expected 5166 octets"],
  [() => softFromLlr([0, NaN]), RangeError, "values[1] is NaN; expected a number"],
  [() => softFromLlr([1], { scale: 0 }), RangeError, "scale is 0; expected a finite number above 0"],
  [() => softFromLlr("1"), TypeError, 'values is "1"; expected an array of numbers'],
  [() => softFromSbits([-129]), RangeError, "sbits[0] is -129; expected an integer from -128 to 127"],
  [() => softFromTrx([0, 256]), RangeError, "octets[1] is 256; expected an integer from 0 to 255"],
  [() => softFromBits([0, 1, 2]), RangeError, "bits[2] is 2; expected an integer from 0 to 1"],
];

const REFUSED = (um) => [
  ["notopen", () => um.end("mobile").send([1])],
  ["notrunning", () => um.end("network").timer()],
  ["empty", () => um.end("mobile").open([]), "; expected at least one octet"],
  ["toolong", () => um.end("mobile").open(zeros(21)), "; send takes at most 251 octets, open and unit 20 (18 on SACCH)"],
  ["toolong", () => um.end("mobile").unit(new Uint8Array(1000))],
  ["nocall", () => um.end("network").open([1])],
  ["nocall", () => um.end("mobile").openBare()],
  ["noframe", () => um.end("mobile").take(new Uint8Array(23))],
  ["noend", () => um.endFromBytes(um.end("mobile").toBytes().fill(255, 4))],
  ["notopen", () => um.side("mobile").send(3, [1])],
  ["noend", () => um.sideFromBytes(um.side("mobile").toBytes().copyWithin(4 + 2581, 4, 4 + 2581))],
  ["notidle", () => {
    const mobile = um.end("mobile", { sapi: 3 });
    mobile.openBare();
    mobile.openBare();
  }],
  ["full", () => {
    const [mobile, network] = [um.end("mobile"), um.end("network")];
    mobile.take(network.take(mobile.open([1]).frames[0]).frames[0]);
    for (let i = 0; i < 9; i++) mobile.send([i]);
  }],
];

// what a page has put on every object is no option
const ownOptions = (um) => {
  Object.prototype.sapi = 3;
  try {
    assert.equal(um.end("mobile").sapi, 0);
  } finally {
    delete Object.prototype.sapi;
  }
};

const states = (um) => {
  const mobile = um.end("mobile", { sapi: 3, channel: "sacch" });
  assert.deepEqual([mobile.role, mobile.sapi, mobile.channel, mobile.state, mobile.timerRuns], ["mobile", 3, "sacch", "idle", false]);
  const saved = mobile.copy();
  mobile.openBare();
  assert.deepEqual([mobile.state, mobile.timerRuns, saved.state], ["opening", true, "idle"]);
  const octets = mobile.toBytes();
  assert.deepEqual([octets.length, ...octets.subarray(0, 12)], [2585, 0x75, 0x6d, 0x45, 0x31, ...zeros(8)]);
  // role, SAPI, channel and state; the kept octets come after 21 octets of numbers
  assert.deepEqual([...octets.subarray(12, 16)], [0, 3, 1, 1]);
  assert.deepEqual(um.endFromBytes(octets).toBytes(), octets);
  octets.fill(255);
  assert.equal(mobile.state, "opening");
};

const sides = (um) => {
  const [mobile, network] = [um.side("mobile"), um.side("network")];
  const { sapi, frames, notices } = network.take(mobile.openBare().frames[0]);
  assert.deepEqual([sapi, notices[0].kind, network.end(3).state, network.end(0).state], [3, "opened", "open", "idle"]);
  assert.equal(mobile.take(frames[0]).sapi, 3);
  assert.deepEqual([mobile.end(3).state, mobile.role, mobile.channel, mobile.end(3).timerRuns], ["open", "mobile", "sdcch", false]);
  mobile.end(3).close();
  assert.equal(mobile.end(3).state, "open");
  assert.deepEqual([mobile.timerRuns(3), network.timerRuns(0), mobile.copy().timerRuns(0)], [false, false, false]);
  const octets = mobile.copy().toBytes();
  assert.deepEqual([octets.length, ...octets.subarray(0, 4)], [5166, 0x75, 0x6d, 0x53, 0x31]);
  assert.deepEqual([octets.subarray(4, 2585), octets.subarray(2585)], [0, 3].map((sapi) => mobile.end(sapi).toBytes().subarray(4)));
  assert.deepEqual(um.sideFromBytes(octets).toBytes(), octets);
};

// every form of the same soft bits answers the same; a lost burst with one weak bit is not taken for hard bits
const forms = (um) => {
  const soft = softFromBits(um.sendBlock(zeros(23), 6)).fill(0, 148, 296);
  soft[200] = 1;
  const wanted = um.receiveBlock(soft);
  assert.equal(wanted.accepted.length, 23);
  const list = Array.from(soft);
  for (const form of [list, Int16Array.from(soft), rowsOf(soft), rowsOf(list), rowsOf(Int32Array.from(soft)), Object.freeze(list)]) {
    assert.deepEqual(um.receiveBlock(form), wanted);
  }
};

// a getter that makes another call while its list is read does not change what the first call reads
const callsBack = (um) => {
  const soft = Array.from(softFromBits(um.sendBlock(new Array(23).fill(9), 3)));
  const other = softFromBits(um.sendAccess(change(zeros(8), 3, 1), change(zeros(6), 2, 1)));
  const link = um.dataLink("mobile");
  link.open([1]);
  const disturb = () => {
    um.receiveBlock(Array.from(softFromBits(um.sendBlock(new Array(23).fill(77), 3))));
    um.receiveAccess(Array.from(other), zeros(6));
    um.sendAccess(new Array(8).fill(1), new Array(6).fill(1));
    link.copy().unit(0, new Array(18).fill(5), [6, 7]);
  };
  const calling = (list) =>
    new Proxy(list, { get: (of, key) => (key === String(list.length - 1) ? (disturb(), of[key]) : Reflect.get(of, key)) });
  const burst = Array.from(softFromBits(um.sendAccess(zeros(8), zeros(6))));
  for (const [call, ...lists] of [
    [(bursts) => um.receiveBlock(bursts), soft],
    [(bursts) => um.receiveBlock(rowsOf(bursts)), soft],
    [(...rows) => um.receiveBlock(rows), ...rowsOf(soft)],
    [(bursts) => um.detectTraining(bursts), soft],
    [(info, code) => um.sendAccess(info, code), change(zeros(8), 1, 1), zeros(6)],
    [(bits, code) => um.receiveAccess(bits, code), burst, zeros(6)],
    [(octets, two) => link.unit(0, octets, two), [1, 2, 3], [4, 5]],
    [(octets) => um.end("network").take(octets), Array.from(um.end("mobile").open([1]).frames[0])],
    [(word) => um.repair(word), zeros(224)],
  ]) {
    assert.deepEqual(call(...lists.map(calling)), call(...lists));
  }
};

// the same values as in Python's tests
const conversions = () => {
  assert.deepEqual([...softFromLlr([8, 99, -1e30, 3.25, 0.03, 0.625, 0.875, -0.625])], [32, 127, -127, 13, 0, 2, 4, -2]);
  assert.deepEqual([...softFromLlr(Float32Array.of(0.5, -1, Infinity), { scale: 50, positive: 1 })], [-25, 50, -127]);
  assert.deepEqual([...softFromSbits([-128, -127, 0, 127])], [-127, -127, 0, 127]);
  assert.deepEqual([...softFromTrx([0, 126, 127, 128, 254, 255])], [127, 1, 0, -1, -127, -127]);
};

// a message that is too long is refused without reading all of it
const longMessage = (um) => {
  const start = performance.now();
  assert.throws(() => um.end("mobile").unit(new Uint8Array(2 ** 26)), (error) => error.reason === "toolong");
  assert.throws(() => um.end("mobile").unit(new Int32Array(2 ** 22)), (error) => error.reason === "toolong");
  assert.ok(performance.now() - start < 1000);
};

const trap = (um) => {
  const fine = () => um.receiveBlock(softFromBits(um.sendBlock(zeros(23), 6))).tsc;
  const before = um.exports;
  assert.throws(() => um.exports.um_send_block(2n ** 31n, 0, 2n ** 31n), WebAssembly.RuntimeError);
  assert.throws(fine, /um_send_block trapped in WebAssembly .*; the instance was discarded/);
  assert.equal(fine(), 6);
  assert.notEqual(um.exports, before);
};

// a module whose um_version returns 1002003; its first eight octets are one without calls
const OTHER = Uint8Array.of(
  ...[0, 0x61, 0x73, 0x6d, 1, 0, 0, 0, 1, 5, 1, 0x60, 0, 1, 0x7f, 3, 2, 1, 0, 7, 14, 1, 10],
  ...new TextEncoder().encode("um_version"),
  ...[0, 0, 10, 8, 1, 6, 0, 0x41, 0x93, 0x94, 0x3d, 0x0b],
);

export const tryVersions = async (um) => {
  assert.equal(um.version(), VERSION.replace("-dev", ""));
  const message = new RegExp(`^um.wasm has version 1.2.3; expected ${VERSION}, as um.mjs; in a checkout: cp`);
  await assert.rejects(load(OTHER), { message });
  await assert.rejects(load(OTHER.subarray(0, 8)), /^Error: um.wasm has version none; expected/);
};

export const tryArguments = (um) => {
  for (const [call, type, words] of WRONG(um)) {
    assert.throws(call, (error) => error.constructor === type && error.message.startsWith(words) || assert.fail(`${error}, not ${words}`));
  }
  for (const [reason, call, words = ""] of REFUSED(um)) {
    assert.throws(call, (error) => error instanceof Refused && error.reason === reason && error.message.includes(words));
  }
  ownOptions(um);
  states(um);
  sides(um);
  forms(um);
  conversions();
  longMessage(um);
  callsBack(um);
  trap(um);
  assert.ok(um instanceof Um);
  return WRONG(um).length + REFUSED(um).length;
};
