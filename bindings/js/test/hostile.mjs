// Calls with hostile arguments. Each throws a TypeError, a RangeError or Refused, or answers as the same call does for the plain list or
// number that the argument stands for; good calls afterwards answer as before.
import assert from "node:assert/strict";
import { Refused, softFromBits } from "../um.mjs";

let drawn;
const draw = (below) => {
  drawn ^= drawn << 13;
  drawn ^= drawn >>> 17;
  drawn ^= drawn << 5;
  return (drawn >>> 8) % below;
};
const one = (list) => list[draw(list.length)];
const numbers = (count, least, most) => Array.from({ length: count }, () => least + draw(most - least + 1));

const ODD = [undefined, null, NaN, Infinity, -1, 0.5, 256, 2 ** 32, 2 ** 53, 5n, "7", "", true, Symbol("x"), {}, [3], () => 3, -0, 7];
const odd = () => one([...ODD, new Number(3), { valueOf: () => 3 }, new Date(), new Proxy({}, {})]);
const TYPES = [Int8Array, Uint8Array, Uint8ClampedArray, Int16Array, Uint16Array, Int32Array, Float32Array, Float64Array];
const quarters = (list, make) => [0, 1, 2, 3].map((i) => make(list.slice((i * list.length) >> 2, ((i + 1) * list.length) >> 2)));
const transferred = (list) => {
  const moved = one(TYPES).from(list);
  structuredClone(moved.buffer, { transfer: [moved.buffer] });
  return moved;
};

// forms of a list: some stand for it, some for another or for none
const FORMS = [
  (list) => list,
  (list) => one(TYPES).from(list),
  (list) => Object.freeze(list),
  (list) => new Proxy(list, {}),
  (list) => quarters(list, (row) => row),
  (list) => quarters(list, (row) => one(TYPES).from(row)),
  (list) => quarters(list, (row) => one([row, null, undefined, "x", row.slice(1), new Array(row.length)])),
  (list) => [list],
  (list) => list.slice(1),
  (list) => [...list, 0],
  (list) => BigInt64Array.from(list, BigInt),
  (list) => new DataView(new ArrayBuffer(list.length)),
  (list) => new Uint8Array(new SharedArrayBuffer(list.length)),
  (list) => one([new Set(list), list.join(""), { length: list.length, ...list }, list[Symbol.iterator]()]),
  (list) => new Array(one([list.length, 4, 1])),
  (list) => (delete list[draw(list.length)], list),
  (list) => list.fill(odd(), draw(list.length)),
  (list) => Float32Array.from(list, (value) => (draw(40) ? value : NaN)),
  (list) => Object.setPrototypeOf(list, null),
  transferred,
  odd,
];

const isList = (value) => Array.isArray(value) || (ArrayBuffer.isView(value) && !(value instanceof DataView));

const inRange = (value, least, most) => (Number.isInteger(value) && value >= least && value <= most ? value + 0 : null);

// the plain list that an argument stands for, or null
const plain = (value, count, least, most) => {
  if (!isList(value)) return null;
  let list = Array.from({ length: value.length }, (_, i) => value[i]);
  const rows = count === 592 ? 4 : count === 148 ? 1 : 0;
  if (list.length === rows && list.every((row) => isList(row) && row.length === 148)) list = list.flatMap((row) => Array.from(row));
  return list.length === count && list.every((entry) => inRange(entry, least, most) !== null) ? list.map((entry) => entry + 0) : null;
};

const OCTETS = [23, 0, 255];
const SOFT = [592, -127, 127];
const BSIC = [6, 0, 1];
// for each argument its least and greatest value, after the count of a list
const CALLS = {
  sendBlock: [OCTETS, [0, 7]],
  receiveBlock: [SOFT],
  receiveBlockAmong: [SOFT, [1, 64]],
  marginBlock: [SOFT],
  repair: [[224, 0, 1]],
  sendAccess: [[8, 0, 1], BSIC],
  receiveAccess: [[88, -127, 127], BSIC],
  sendSync: [[25, 0, 1]],
  receiveSync: [[148, -127, 127]],
  readFrame: [OCTETS],
  readB4: [OCTETS],
  writeB4: [[19, 0, 255], [2, 0, 255]],
};
const shown = (_, part) => (ArrayBuffer.isView(part) ? Array.from(part) : typeof part === "bigint" ? `${part}n` : part);
const text = (value) => JSON.stringify(value, shown);
const attempt = (call) => {
  try {
    return { answer: text(call()) };
  } catch (error) {
    assert.ok(error instanceof TypeError || error instanceof RangeError || error instanceof Refused, `${error.stack}`);
    return { error };
  }
};

const oneCall = (um) => {
  const name = one(Object.keys(CALLS));
  const forms = CALLS[name];
  const good = forms.map((form) => (form.length === 3 ? numbers(...form) : numbers(1, ...form)[0]));
  const at = draw(good.length);
  const hostile = forms[at].length === 3 ? one(FORMS)(good[at].slice()) : odd();
  const stands = forms[at].length === 3 ? plain(hostile, ...forms[at]) : inRange(hostile, ...forms[at]);
  const given = attempt(() => um[name](...good.map((value, i) => (i === at ? hostile : value))));
  if (stands === null) assert.ok(given.error, `${name} takes what stands for nothing`);
  else assert.equal(given.answer, attempt(() => um[name](...good.map((value, i) => (i === at ? stands : value)))).answer, name);
};

// a state whose octets were changed is refused, or is a state that takes every call
const oneState = (um) => {
  const state = draw(2) ? um.side("mobile") : um.end("network", { sapi: 3, channel: "sacch" });
  attempt(() => state.openBare());
  const octets = state.toBytes();
  for (let i = draw(4); i > 0; i--) octets[draw(3) ? 4 + 8 + draw(13) : draw(octets.length)] = draw(256);
  const restored = [];
  attempt(() => restored.push(octets.length > 3000 ? um.sideFromBytes(octets) : um.endFromBytes(octets)));
  for (const end of restored.flatMap((whole) => (whole.end ? [whole.end(0), whole.end(3)] : [whole]))) {
    const before = text(end.toBytes());
    const changes = [() => end.timer(), () => end.take(numbers(...OCTETS)), () => end.send([1]), () => end.close()];
    const given = attempt(one([...changes, () => end.unit(one(FORMS)([1, 2, 3]))]));
    if (given.error) assert.equal(text(end.toBytes()), before, "a refused call changed the state");
    assert.ok(end.state && end.variables && typeof end.timerRuns === "boolean");
  }
};

/** Tries `count` cases, and returns the count. */
export const tryHostile = (um, count, seed = 2463534242) => {
  drawn = seed | 0;
  const soft = softFromBits(um.sendBlock(numbers(...OCTETS), 5));
  const wanted = text(um.receiveBlock(soft));
  for (let i = 0; i < count; i++) {
    (draw(5) ? oneCall : oneState)(um);
    if (i % 50 === 0) assert.equal(text(um.receiveBlock(soft)), wanted, "a good call answers otherwise afterwards");
  }
  return count;
};
