// A grid of bits: arrow keys move between them, Enter and Space flip one, and each shows its origin.
import { h, write } from "./dom.mjs";

const LEVELS = ["", "weak", "fair", "good", "sure"];
const levelOf = (soft) => LEVELS[Math.ceil(Math.abs(soft) / 32)];

/** The look of a soft bit: its digit, "?" where nothing is known, and how sure it is. */
export const softLook = (soft) => (soft === 0 ? ["?", "none"] : [soft < 0 ? "1" : "0", `${soft < 0 ? "one" : "zero"} ${levelOf(soft)}`]);

export class BitGrid {
  #cells = [];
  #looks = [];
  #rows;
  #current = 0;
  #lit = [];

  /** rows: { name, count } each; kinds: a class for each bit; describe(i): its words; look at(i), and flip(i) where bits can be flipped. */
  constructor(host, { label, rows, kinds, describe, at, flip }) {
    this.host = host;
    this.describe = describe;
    this.#rows = rows;
    host.setAttribute("role", "grid");
    host.setAttribute("aria-label", label);
    let first = 0;
    for (const { name, count } of rows) {
      const row = h("div", { role: "row", class: "bits" });
      for (let i = first; i < first + count; i++) {
        const cell = h("span", { role: "gridcell", tabindex: -1, "data-i": i, class: kinds[i] });
        this.#cells.push(cell);
        row.append(cell);
      }
      host.append(...(name ? [h("p", { class: "row-name", "aria-hidden": true }, name)] : []), row);
      first += count;
    }
    this.kinds = kinds;
    this.#cells[0].tabIndex = 0;
    const place = (event) => (event.target.dataset.i === undefined ? null : Number(event.target.dataset.i));
    host.addEventListener("keydown", (event) => this.#key(event, flip));
    host.addEventListener("focusin", (event) => place(event) !== null && at(place(event)));
    host.addEventListener("pointerover", (event) => place(event) !== null && at(place(event)));
    if (flip) host.addEventListener("click", (event) => place(event) !== null && (this.focus(place(event)), flip(place(event))));
  }

  // the bit in the same column of the next or previous row
  #beside(step) {
    let first = 0;
    const row = this.#rows.findIndex(({ count }) => this.#current < (first += count));
    const start = first - this.#rows[row].count;
    const next = this.#rows[row + step];
    if (!next) return this.#current;
    const begin = step > 0 ? first : start - next.count;
    return begin + Math.min(this.#current - start, next.count - 1);
  }

  #key(event, flip) {
    const last = this.#cells.length - 1;
    const moves = {
      ArrowLeft: () => this.#current - 1,
      ArrowRight: () => this.#current + 1,
      ArrowUp: () => this.#beside(-1),
      ArrowDown: () => this.#beside(1),
      Home: () => 0,
      End: () => last,
      PageUp: () => this.#current - 10,
      PageDown: () => this.#current + 10,
    };
    if (moves[event.key]) this.focus(Math.max(0, Math.min(last, moves[event.key]())));
    else if (flip && (event.key === " " || event.key === "Enter")) {
      flip(this.#current);
      this.#cells[this.#current].setAttribute("aria-label", this.describe(this.#current));
    } else return;
    event.preventDefault();
  }

  focus(i) {
    this.#cells[this.#current].tabIndex = -1;
    this.#current = i;
    const cell = this.#cells[i];
    cell.tabIndex = 0;
    cell.setAttribute("aria-label", this.describe(i));
    cell.focus();
  }

  /** look(i): the digit and the classes of bit i. Only what changed is touched. */
  draw(look) {
    this.#cells.forEach((cell, i) => {
      const [digit, classes] = look(i);
      const both = `${this.kinds[i]} ${classes}`;
      write(cell, digit);
      if (this.#looks[i] === both) return;
      this.#looks[i] = both;
      cell.className = both;
      cell.removeAttribute("aria-label");
    });
  }

  light(places) {
    for (const i of this.#lit) this.#cells[i].removeAttribute("data-lit");
    for (const i of places) this.#cells[i].setAttribute("data-lit", "");
    this.#lit = places;
  }
}
