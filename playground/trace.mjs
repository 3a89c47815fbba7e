// Three grids of bits: the decoded word, its coded bits, and the received bits. Each bit shows its origin, and the bits that belong
// together light up in all three.
import { BitGrid, softLook } from "./bits.mjs";
import { differs, sources, sum, targets, wordBit } from "./coding.mjs";
import { $, write } from "./dom.mjs";

const bursts = (count) => Math.max(1, count / 148 | 0);
const wordKind = (k, { data, crc }) => {
  if (k >= data + crc) return "tail";
  if (k >= data) return k === data ? "crc octet" : "crc";
  return data === 184 && k % 8 === 0 ? "data octet" : "data";
};
export const placeKind = ({ name, i }) => {
  if (/tail/.test(name)) return "tail";
  return (name === "coded" ? "data" : name === "stealing flag" ? "flag" : "training") + (i === 0 ? " octet" : "");
};

export class Trace {
  /** Draws into the elements PREFIX-word, -coded, -burst and -about. */
  constructor(prefix, layout, path) {
    const { word, places, at } = layout;
    const length = at.length / 2;
    Object.assign(this, { layout, path, length, about: $(`${prefix}-about`) });
    const list = (count, kindOf) => Array.from({ length: count }, (_, k) => kindOf(k));
    const grid = (part, label, rows, kinds, flip) =>
      new BitGrid($(`${prefix}-${part}`), {
        label, rows, kinds, flip,
        describe: (i) => this.words(part, i),
        at: (i) => this.relate(part, i),
      });
    const four = bursts(places.length) === 4;
    this.grids = {
      word: grid("word", "The decoded word", [{ count: length }], list(length, (k) => wordKind(k, word))),
      coded: grid("coded", "Coded bits of that word", [{ count: at.length }],
        list(at.length, (k) => (four ? `data burst${k % 4}` : "data"))),
      burst: grid("burst", four ? "Four bursts as received" : "The burst as received",
        four ? [0, 1, 2, 3].map((b) => ({ name: `Burst ${b}`, count: 148 })) : [{ count: places.length }],
        places.map(placeKind), (i) => path.flip(i)),
    };
  }

  #place(i) {
    return bursts(this.layout.places.length) === 4 ? `bit ${i % 148} of burst ${i / 148 | 0}` : `bit ${i} of the burst`;
  }

  #received(i) {
    const soft = this.shown.soft[i];
    return soft === 0 ? "nothing received" : `received ${soft < 0 ? 1 : 0}, soft bit ${soft}`;
  }

  #wordWords(k) {
    const { report, truth } = this.shown;
    const { word } = this.layout;
    const bsic = word.data === 8 && k >= 8 && k < 14 ? ", XORed with the BSIC" : "";
    const wrong = truth && truth[k] !== report.word[k] ? `, but ${truth[k]} was sent` : "";
    const into = targets(k, this.length).map((c) => `c(${c})`).join(", ");
    return `u(${k}), ${wordBit(k, word)}${bsic}: ${report.word[k]}${wrong}. It is part of ${into}.`;
  }

  #burstWords(i) {
    const { name, i: n, count } = this.layout.places[i];
    const k = this.layout.coded[i];
    const part = count > 1 ? `${name}, bit ${n + 1} of ${count}` : name;
    const sent = this.shown.sent ? `, sent ${this.shown.sent[i]}` : "";
    const place = this.#place(i);
    const flipped = this.path.flips.has(i) ? " (flipped)" : "";
    return `${place[0].toUpperCase()}${place.slice(1)}: ${k >= 0 ? `coded bit ${sum(k)}` : part}${sent}, ${this.#received(i)}${flipped}.`;
  }

  /** What bit i of a grid is. */
  words(part, i) {
    if (part === "word") return this.#wordWords(i);
    if (part === "burst") return this.#burstWords(i);
    const place = this.layout.at[i];
    return `${sum(i)} = ${this.shown.coded[i]}; ${this.#received(place)}. It is ${this.#place(place)}.`;
  }

  /** Lights what belongs to bit i of a grid, and says what it is. */
  relate(part, i) {
    const { coded: codedAt, at } = this.layout;
    const coded = part === "word" ? targets(i, this.length) : part === "coded" ? [i] : codedAt[i] < 0 ? [] : [codedAt[i]];
    this.grids.word.light(part === "word" ? [i] : coded.flatMap(sources));
    this.grids.coded.light(coded);
    this.grids.burst.light(part === "burst" ? [i] : coded.map((k) => at[k]));
    this.at = [part, i];
    write(this.about, this.words(part, i));
  }

  /** shown: sent and truth (or null), soft, report and coded. */
  draw(shown) {
    this.shown = shown;
    const { sent, truth, soft, report, coded } = shown;
    const { at, coded: codedAt } = this.layout;
    const mark = (is, name) => (is ? ` ${name}` : "");
    this.grids.word.draw((k) => [String(report.word[k]), mark(truth && truth[k] !== report.word[k], "unsent")]);
    this.grids.coded.draw((k) => [String(coded[k]), mark(differs(soft[at[k]], coded[k]), "unlike")]);
    this.grids.burst.draw((i) => {
      const [digit, look] = softLook(soft[i]);
      const k = codedAt[i];
      return [digit, look + mark(sent && differs(soft[i], sent[i]), "unsent") + mark(k >= 0 && differs(soft[i], coded[k]), "unlike")];
    });
    if (this.at) write(this.about, this.words(...this.at));
  }
}
