// The position and origin of each bit (3GPP TS 45.003, 4.1; TS 45.002, 5.2), for the drawing. The library has no call for it, so the
// check compares the drawn bits with the results of sendBlock, sendAccess and sendSync.

/** The coded bits of a word: c(2k) = u(k) + u(k-3) + u(k-4), c(2k+1) the same and u(k-1). */
export const encode = (word) => {
  const u = (k) => (k < 0 ? 0 : word[k]);
  return Uint8Array.from({ length: 2 * word.length }, (_, i) => {
    const k = i >> 1;
    return u(k) ^ u(k - 3) ^ u(k - 4) ^ (i & 1 ? u(k - 1) : 0);
  });
};

/** The bits of the word that coded bit i adds up. */
export const sources = (i) => [i >> 1, ...(i & 1 ? [(i >> 1) - 1] : []), (i >> 1) - 3, (i >> 1) - 4].filter((k) => k >= 0);

/** The coded bits that bit k of a word of `length` goes into. */
export const targets = (k, length) =>
  [2 * k, 2 * k + 1, 2 * k + 3, 2 * k + 6, 2 * k + 7, 2 * k + 8, 2 * k + 9].filter((i) => i < 2 * length);

const part = (name, count) => Array.from({ length: count }, (_, i) => ({ name, i, count }));

// the position of coded bit k among the 592 bits of four bursts
const blockPlace = (k) => {
  const j = 2 * ((49 * k) % 57) + ((k % 8) >> 2);
  return 148 * (k % 4) + j + (j < 57 ? 3 : 31);
};

const NORMAL = [...part("tail", 3), ...part("coded", 57), ...part("stealing flag", 1), ...part("training sequence", 26),
  ...part("stealing flag", 1), ...part("coded", 57), ...part("tail", 3)];

// a layout: the meaning of each transmitted bit, and the position of each coded bit
const layout = (places, word, placeOf) => {
  const at = Array.from({ length: 2 * word.data + 2 * word.crc + 8 }, (_, k) => placeOf(k));
  const coded = new Int16Array(places.length).fill(-1);
  at.forEach((place, k) => (coded[place] = k));
  return { places, word, at, coded };
};

export const BLOCK = layout([...NORMAL, ...NORMAL, ...NORMAL, ...NORMAL], { data: 184, crc: 40 }, blockPlace);
export const ACCESS = layout(
  [...part("extended tail", 8), ...part("synchronisation sequence", 41), ...part("coded", 36), ...part("tail", 3)],
  { data: 8, crc: 6 }, (k) => 49 + k,
);
export const SYNC = layout(
  [...part("tail", 3), ...part("coded", 39), ...part("extended training sequence", 64), ...part("coded", 39), ...part("tail", 3)],
  { data: 25, crc: 10 }, (k) => (k < 39 ? 3 + k : 67 + k),
);

/** The name of bit k of a word. */
export const wordBit = (k, { data, crc }) => {
  if (k >= data + crc) return `tail bit ${k - data - crc + 1} of 4, always 0`;
  if (k >= data) return `CRC bit ${k - data + 1} of ${crc}`;
  return data === 184 ? `data bit ${k}: octet ${(k >> 3) + 1}, bit ${(k & 7) + 1}` : `data bit ${k}`;
};

export const sum = (i) => `c(${i}) = ${sources(i).map((k) => `u(${k})`).join(" + ")}`;

/** Whether what is drawn as the coded bits is what was sent; `truth` is the word that was sent. */
export const drawnAsSent = ({ at }, { sent, truth }) => sent === null || encode(truth).every((bit, k) => bit === sent[at[k]]);

// -- the radio path --

// numbers from 0 to 1, the same for each seed (mulberry32)
export const randomOf = (seed) => () => {
  seed = (seed + 0x6d2b79f5) | 0;
  let t = Math.imul(seed ^ (seed >>> 15), 1 | seed);
  t = (t + Math.imul(t ^ (t >>> 7), 61 | t)) ^ t;
  return ((t ^ (t >>> 14)) >>> 0) / 4294967296;
};

/** Soft bits of what is sent, with white Gaussian noise of Es/N0 in dB, or none where that is null. */
export const noisy = (bits, db, seed) => {
  if (db === null) return Int8Array.from(bits, (bit) => (bit ? -127 : 127));
  const random = randomOf(seed);
  const sigma = Math.sqrt(0.5 / 10 ** (db / 10));
  return Int8Array.from(bits, (bit) => {
    const gauss = Math.sqrt(-2 * Math.log(1 - random())) * Math.cos(2 * Math.PI * random());
    return Math.max(-127, Math.min(127, Math.round(64 * ((bit ? -1 : 1) + sigma * gauss))));
  });
};

/** Whether a soft bit, of which 0 says nothing, differs from a bit. */
export const differs = (soft, bit) => (bit ? soft >= 0 : soft <= 0);
