// The view FACCH: a block in stolen halves of the bursts of a traffic channel. Where each of its bits is sent is what the library says.
import { BitGrid, softLook } from "./bits.mjs";
import { BLOCK, sum } from "./coding.mjs";
import { $, EXAMPLE, h, hex, octetsOf, valueOf, write } from "./dom.mjs";
import { placeKind } from "./trace.mjs";

const COUNTS = { full: 8, half: 6 };
const HINT = "Point at a bit, or move to it with the arrow keys, to see where it is sent.";
const FLAGS = { 60: "hl", 87: "hu" };
const KINDS = BLOCK.places.slice(0, 148).map(placeKind);
const burstOf = (i) => i / 148 | 0;
const isHalved = (i) => /data|flag/.test(KINDS[i % 148]);
const bitOf = (i) => `bit ${i % 148} of burst ${burstOf(i)}`;
const flagsOf = (places) => places.map((i) => FLAGS[i % 148]).filter(Boolean);

// the bit of `count` bursts that the library joins to each bit of a block: their numbers are joined as soft bits, digit by digit
const joined = (um, count) => {
  const digits = (digit) => um.joinFacch(Int8Array.from({ length: 148 * count }, (_, i) => digit(i)));
  const high = digits((i) => i >> 6);
  return Array.from(digits((i) => i & 63), (low, place) => low + 64 * high[place]);
};

// the name of a burst: which of its bits are of the block
const rowName = (taken, burst) => {
  const own = taken.filter((i) => burstOf(i) === burst);
  const flags = flagsOf(own);
  const odd = own.filter((i) => i % 2).length;
  const places = odd === own.length ? "odd" : odd ? "all" : "even";
  return `Burst ${burst}: the ${own.length - flags.length} coded bits at ${places} positions, ${flags.join(" and ")}`;
};

export class FacchView {
  constructor(um, changed) {
    Object.assign(this, { um, changed, rates: {}, at: -1 });
    const grid = (name, label, rows) => new BitGrid($(`facch-${name}`), {
      label, rows, kinds: rows.flatMap(() => KINDS),
      describe: (i) => this.#words(name, i),
      at: (i) => this.#relate(name, i),
    });
    const rows = (count, nameOf) => Array.from({ length: count }, (_, burst) => ({ name: nameOf(burst), count: 148 }));
    this.block = grid("block", "The block as four bursts", rows(4, (burst) => `Burst ${burst} of the block`));
    for (const [rate, count] of Object.entries(COUNTS)) {
      const from = joined(um, count);
      const taken = from.filter((_, place) => isHalved(place));
      $("facch-bursts").append(h("div", { id: `facch-${rate}` }));
      const carriers = grid(rate, "The bursts that carry it", rows(count, (burst) => rowName(taken, burst)));
      this.rates[rate] = { count, from, taken, grid: carriers };
    }
    $("facch-octets").addEventListener("input", ({ target }) => {
      this.octets = valueOf(target, (text) => octetsOf(text, 23)) ?? this.octets;
      this.draw();
    });
    $("facch-rate").addEventListener("change", ({ target }) => {
      this.rate = target.value;
      this.draw();
    });
  }

  // what a bit is of a grid, "block" or a rate
  #words(name, i) {
    const { from } = this.rates[this.rate];
    const place = name === "block" ? i : from.indexOf(i);
    const what = BLOCK.places[i % 148].name;
    if (!isHalved(i)) return `B${bitOf(i).slice(1)}: ${what}, as in every burst.`;
    if (place < 0) return `B${bitOf(i).slice(1)}: of the other half, which belongs to speech or to another block.`;
    const k = BLOCK.coded[place];
    const bit = k < 0 ? `the ${what} ${flagsOf([place])}` : `coded bit ${sum(k)}`;
    return `B${bitOf(place).slice(1)} of the block: ${bit}. It is sent as ${bitOf(from[place])}.`;
  }

  #relate(name, i) {
    const { from, grid } = this.rates[this.rate];
    const place = name === "block" ? i : from.indexOf(i);
    const both = isHalved(i) && place >= 0;
    this.at = place;
    this.block.light(both ? [place] : []);
    grid.light(both ? [from[place]] : []);
    write($("facch-about"), this.#words(name, i));
  }

  draw() {
    const { um, octets } = this;
    const { count, from, taken, grid } = this.rates[this.rate];
    const block = um.sendBlock(octets, 7);
    const sent = um.stealFacch(block, new Uint8Array(148 * count));
    const look = (bit) => softLook(bit ? -127 : 127);
    const own = new Set(taken);
    this.block.draw((i) => look(block[i]));
    grid.draw((i) => (isHalved(i) && !own.has(i) ? ["·", "none"] : look(sent[i])));
    for (const rate of Object.keys(COUNTS)) {
      $(`facch-${rate}`).hidden = rate !== this.rate;
      this.rates[rate].grid.light([]);
    }
    if (this.at < 0) write($("facch-about"), HINT);
    else this.#relate("block", this.at);
    const equal = from.filter((i, place) => isHalved(place) && sent[i] === block[place]).length;
    const bits = "464 bits of the block, 456 coded bits and 8 flags";
    write($("facch-sum"), `${equal} of the ${bits}, are in the ${count} bursts as in its own four.`);
    this.changed();
  }

  set(params) {
    this.octets = octetsOf(params.get("octets") ?? EXAMPLE, 23);
    this.rate = params.get("rate") === "half" ? "half" : "full";
    $("facch-octets").value = hex(this.octets);
    valueOf($("facch-octets"), () => 0);
    $("facch-rate").value = this.rate;
    this.draw();
  }

  get() {
    return { octets: hex(this.octets), rate: this.rate };
  }
}
