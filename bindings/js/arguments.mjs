// arguments.mjs - tests arguments, because WebAssembly would take 256 for 0. A TypeError or RangeError reports the argument, its value and
// what was expected.

export const shown = (value) => {
  if (typeof value === "string") return JSON.stringify(value);
  if (typeof value === "bigint") return `${value}n`;
  if (Array.isArray(value) || ArrayBuffer.isView(value)) return `${value.constructor?.name} of ${value.length ?? value.byteLength}`;
  return typeof value === "object" && value !== null ? "an object" : String(value);
};

export const integer = (name, value, least, most) => {
  if (Number.isInteger(value) && value >= least && value <= most) return value;
  throw new RangeError(`${name} is ${shown(value)}; expected an integer from ${least} to ${most}`);
};

export const place = (name, value, words) => {
  const at = words.indexOf(value);
  if (at >= 0) return at;
  throw new RangeError(`${name} is ${shown(value)}; expected ${words.map((word) => JSON.stringify(word)).join(" or ")}`);
};

// an object's own members, which are no others than these
export const membersOf = (name, value, known) => {
  if (typeof value !== "object" || value === null) throw new TypeError(`${name} is ${shown(value)}; expected an object`);
  const other = Object.keys(value).find((key) => !known.includes(key));
  if (other !== undefined) throw new RangeError(`${name} has a member ${JSON.stringify(other)}; expected ${known.join(", ")}`);
  return { __proto__: null, ...value };
};

const isTyped = (value) => ArrayBuffer.isView(value) && !(value instanceof DataView);

// the length of a typed array itself, which a subclass cannot change
const typedLength = Object.getOwnPropertyDescriptor(Object.getPrototypeOf(Int8Array.prototype), "length").get;
const lengthOf = (values) => (isTyped(values) ? typedLength.call(values) : values.length);

const isTransferred = (values) => {
  try {
    Uint8Array.prototype.values.call(values);
    return false;
  } catch {
    return true;
  }
};

const OCTET = { what: "octets", least: 0, most: 255, own: Uint8Array };
const BIT = { what: "bits", least: 0, most: 1, own: null };
const SOFT = { what: "soft bits", least: -127, most: 127, own: null };

const wanted = (count, { what, least, most }) => `${count === undefined ? "" : `${count} `}${what}, integers from ${least} to ${most}`;

// a list of `count` numbers, or of any count if it is undefined; returns the count
const counted = (name, values, count, form) => {
  if (!Array.isArray(values) && !isTyped(values)) {
    throw new TypeError(`${name} is ${shown(values)}; expected an array of ${wanted(count, form)}`);
  }
  const length = lengthOf(values);
  if (length === 0 && isTyped(values) && isTransferred(values)) throw new TypeError(`${name} has no memory; it was transferred`);
  if (count !== undefined && length !== count) throw new RangeError(`${name} has ${length} values; expected ${wanted(count, form)}`);
  return length;
};

// Tests the first `count` values of a list and writes them to `list`, reading each once. A hole of a sparse array is undefined.
const readTested = (list, from, name, values, count, { least, most, own }) => {
  if (own !== null && values instanceof own && count === lengthOf(values)) {
    list.set(values, from);
    return;
  }
  for (let i = 0; i < count; i++) {
    const value = values[i];
    const fits = typeof value === "number" && value === (value | 0) && value >= least && value <= most;
    if (!fits) integer(`${name}[${i}]`, value, least, most);
    list[from + i] = value;
  }
};

// To read a list can run code of the caller's, a getter or a proxy, and that can call the package. So a list is read into memory of its
// own, and only then written to the module's. A call meanwhile takes other memory.
const made = (count = 592) => {
  const soft = new Int8Array(count);
  return { soft, octets: new Uint8Array(soft.buffer) };
};
let spare = made();

// writes the first `count` octets or bits of a list, no more than 592
const putFirst = (memory, at, name, values, count, form) => {
  const own = spare ?? made();
  spare = null;
  try {
    readTested(own.octets, 0, name, values, count, form);
    for (let i = 0; i < count; i++) memory[at + i] = own.octets[i];
  } finally {
    spare = own;
  }
};

export const putOctets = (memory, at, name, values, count) =>
  putFirst(memory, at, name, values, counted(name, values, count, OCTET), OCTET);
export const putBits = (memory, at, name, values, count) => putFirst(memory, at, name, values, counted(name, values, count, BIT), BIT);

const listOf = (name, values, count, form) => {
  const list = new Uint8Array(counted(name, values, count, form));
  readTested(list, 0, name, values, list.length, form);
  return list;
};
export const octetsOf = (name, values, count) => listOf(name, values, count, OCTET);
export const bitsOf = (name, values, count) => listOf(name, values, count, BIT);

// the bits of bursts of 148, one list or a list of bursts
export const bitRows = (name, values, count) => {
  if (!Array.isArray(values) || typeof values[0] === "number") return bitsOf(name, values, 148 * count);
  if (values.length !== count) throw new RangeError(`${name} has ${values.length} bursts; expected ${count}`);
  const all = new Uint8Array(148 * count);
  for (let i = 0; i < count; i++) all.set(bitsOf(`${name}[${i}]`, values[i], 148), 148 * i);
  return all;
};

// writes at most `most` octets of a message, and returns how many; nobody reads the rest of a message that is too long
export const putFirstOctets = (memory, at, name, values, most) => {
  const count = Math.min(counted(name, values, undefined, OCTET), most);
  putFirst(memory, at, name, values, count, OCTET);
  return count;
};

// Reads soft bits as long as they are valid, and returns how many. Soft bits alone, in a loop that engines compile for lists of numbers.
const readValid = (soft, from, values, count) => {
  for (let i = 0; i < count; i++) {
    const value = values[i];
    if (typeof value !== "number" || value !== (value | 0) || value < -127 || value > 127) return i;
    soft[from + i] = value;
  }
  return count;
};

const isSoft = (values, count) => values instanceof Int8Array && typedLength.call(values) === count;

// a list of bursts has an index for each
const readBurst = (soft, from, name, index, values, count) => {
  if (isSoft(values, count)) {
    soft.set(values, from);
  } else if (!Array.isArray(values) || values.length !== count || readValid(soft, from, values, count) < count) {
    const whole = index === undefined ? name : `${name}[${index}]`;
    readTested(soft, from, whole, values, counted(whole, values, count, SOFT), SOFT);
  }
};

// `count` soft bits, as one list or as a list of bursts; -128 in an Int8Array is left for the library to refuse
export const putSoft = (memory, at, name, values, count) => {
  if (isSoft(values, count)) {
    memory.set(values, at);
    return;
  }
  const own = count > 592 ? made(count) : (spare ?? made());
  spare = null;
  try {
    if (Array.isArray(values) && values.length === count / 148 && typeof values[0] !== "number") {
      for (let i = 0; i < count / 148; i++) readBurst(own.soft, 148 * i, name, i, values[i], 148);
    } else {
      readBurst(own.soft, 0, name, undefined, values, count);
    }
    memory.set(count === own.soft.length ? own.soft : own.soft.subarray(0, count), at);
  } finally {
    spare = count > 592 ? made() : own;
  }
};

// reports the soft bit of -128 for which the library refused
export const refuse128 = (name, values, count) => {
  const rows = Array.isArray(values) && typeof values[0] !== "number" ? values.map((row, i) => [`${name}[${i}]`, row]) : [[name, values]];
  for (const [row, list] of rows) {
    for (let i = 0; i < lengthOf(list); i++) if (list[i] === -128) integer(`${row}[${i}]`, -128, -127, 127);
  }
  throw new RangeError(`${name} changed during the call; expected ${count} soft bits from -127 to 127`);
};

// whether soft bits are all 0 or 1, with a 1 among them
export const areHardBits = (soft) => soft.includes(1) && soft.every((value) => value === 0 || value === 1);

export const refuseHardBits = (name) => {
  throw new RangeError(
    `${name} has hard bits, each 0 or 1; expected soft bits from -127 to 127, as softFromBits(bits) returns them`,
  );
};

/** Converts hard bits to soft bits: 127 for a 0, -127 for a 1. */
export const softFromBits = (bits) => {
  const soft = new Int8Array(counted("bits", bits, undefined, BIT));
  readTested(soft, 0, "bits", bits, soft.length, BIT);
  for (let i = 0; i < soft.length; i++) soft[i] = soft[i] ? -127 : 127;
  return soft;
};

const softFrom = (name, values, form, convert) => {
  const soft = new Int8Array(counted(name, values, undefined, form));
  for (let i = 0; i < soft.length; i++) soft[i] = Math.max(-127, convert(integer(`${name}[${i}]`, values[i], form.least, form.most)));
  return soft;
};

/** Converts libosmocore's sbit_t to soft bits: -128 becomes -127. */
export const softFromSbits = (sbits) => softFrom("sbits", sbits, { what: "sbit_t", least: -128, most: 127 }, (sbit) => sbit);

/** Converts the TRX protocol's octets, 0 a certain 0 to 255 a certain 1, to soft bits: 127 minus the octet, at least -127. */
export const softFromTrx = (octets) => softFrom("octets", octets, OCTET, (octet) => 127 - octet);

// the nearest integer, and of two the even one
const roundedToEven = (value) => {
  const rounded = Math.round(value);
  return Math.abs(value % 1) === 0.5 && rounded % 2 !== 0 ? rounded - 1 : rounded;
};

/** Converts log-likelihood ratios to soft bits. */
export const softFromLlr = (values, options = {}) => {
  const { scale = 4, positive = 0 } = membersOf("options", options, ["scale", "positive"]);
  if (!(typeof scale === "number" && scale > 0 && scale < Infinity)) {
    throw new RangeError(`scale is ${shown(scale)}; expected a finite number above 0`);
  }
  if (!Array.isArray(values) && !isTyped(values)) throw new TypeError(`values is ${shown(values)}; expected an array of numbers`);
  const factor = integer("positive", positive, 0, 1) ? -scale : scale;
  const soft = new Int8Array(lengthOf(values));
  for (let i = 0; i < soft.length; i++) {
    const value = values[i];
    if (typeof value !== "number" || Number.isNaN(value)) throw new RangeError(`values[${i}] is ${shown(value)}; expected a number`);
    soft[i] = roundedToEven(Math.max(-127, Math.min(127, value * factor)));
  }
  return soft;
};
