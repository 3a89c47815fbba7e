// A message sequence chart that grows: each event adds rows at the bottom, and nothing above is redrawn. No two rows share a height, so no
// text covers an arrow or other text. A block in transit is a line beside its sender until it arrives. The chart is many small drawings
// in one system of coordinates, because a browser lays out the whole of a drawing that grows.
import { svg } from "./dom.mjs";

const ROW = 17;
const GUTTER = 6;
const COLUMNS = 4;
const HEAD = 34;
const EVENTS = 40; // in one drawing

// the style of a saved SVG file; the page has its own colours
const STYLE = `text{font:12px ui-monospace,monospace;fill:#1a202c} .head{font-weight:600} .lane,.wait{stroke:#8a94a3} .arrow{stroke:#1a202c}
.wait,.arrow,.lost,.hit{fill:none} .wait,.lost{stroke-dasharray:3} .lost,.cross{stroke:#b02a2a} .tip{fill:#1a202c} text.call{fill:#1e4e8c}
text.good{fill:#1d6b3a} text.bad{fill:#b02a2a} text.dim{fill:#5a6472}`;

export class Chart {
  /** look(event): a block that arrived is to be looked at. */
  constructor(host, look) {
    this.host = host;
    this.look = look;
    host.addEventListener("keydown", (event) => this.#key(event));
    host.addEventListener("click", ({ target }) => {
      const at = target.closest("[data-at]")?.dataset.at;
      if (at !== undefined) this.#choose(Number(at), true);
    });
  }

  clear() {
    this.width = Math.max(260, Math.min(960, this.host.clientWidth - 4 || 960));
    const narrow = this.width < 560;
    this.lanes = { rival: 10, mob: narrow ? 52 : 110, net: this.width - 12 };
    this.letter = 7.3;
    this.y = 44;
    this.waiting = new Map();
    this.arrivals = [];
    this.chosen = -1;
    this.host.replaceChildren();
    this.#heads(narrow ? "other" : "another");
    this.#begin(HEAD, HEAD);
    this.#grow();
  }

  // the names of the lanes, which stay visible while the chart scrolls
  #heads(other) {
    this.drawing = svg("svg", { class: "chart heads", width: this.width, height: HEAD });
    this.#text(0, 12, other, "start", "head");
    this.#text(0, 26, "mobile", "start", "head");
    this.#text(this.lanes.mob + 6, 26, "mobile", "start", "head");
    this.#text(this.width, 26, "network", "end", "head");
    this.host.append(this.drawing);
  }

  // a drawing that starts at this height, below the others
  #begin(top, lanesFrom) {
    this.drawing = svg("svg", { class: "chart", width: this.width, role: "presentation" });
    this.top = top;
    this.events = 0;
    this.lines = Object.values(this.lanes).map((x) => svg("line", { class: "lane", x1: x, x2: x, y1: lanesFrom }));
    this.drawing.append(...this.lines);
    this.host.append(this.drawing);
  }

  #text(x, y, words, anchor, kind) {
    this.drawing.append(svg("text", { x, y, "text-anchor": anchor, class: kind }, words));
  }

  // cuts a text to the width between the lanes
  #fit(words) {
    const most = Math.floor((this.lanes.net - this.lanes.mob - 2 * GUTTER * COLUMNS - 16) / this.letter);
    return words.length <= most ? words : `${words.slice(0, most - 1)}…`;
  }

  // a row of words beside an end's lane
  #note(side, words, kind) {
    const right = side === "net";
    const away = GUTTER * COLUMNS + 8;
    this.y += ROW;
    if (side === "rival") this.#text(this.lanes.mob + away, this.y, this.#fit(`another mobile: ${words}`), "start", kind);
    else this.#text(this.lanes[side] + (right ? -away : away), this.y, this.#fit(words), right ? "end" : "start", kind);
  }

  // a block was sent: its line occupies a free column beside its lane
  #wait(block) {
    const taken = [...this.waiting.values()].filter(({ from }) => from === block.from).map(({ column }) => column);
    const column = [1, 2, 3, 4].find((free) => !taken.includes(free)) ?? COLUMNS;
    const x = this.lanes[block.from] + (block.from === "net" ? -1 : 1) * GUTTER * column;
    const path = svg("path", { class: "wait" });
    this.drawing.append(path);
    this.waiting.set(block.id, { from: block.from, column, x, y: this.y + 3, path });
  }

  #stretch({ from, x, y, path }, to) {
    path.setAttribute("d", `M${this.lanes[from]} ${y}H${x}V${to}`);
  }

  #arrow(event) {
    const { block, lost, report, places = [] } = event;
    const start = this.waiting.get(block.id);
    this.waiting.delete(block.id);
    this.y += ROW + 9;
    this.#stretch(start, this.y);
    const end = this.lanes[block.from === "net" ? "mob" : "net"];
    const middle = (this.lanes.mob + this.lanes.net) / 2;
    const step = block.from === "net" ? -1 : 1;
    const group = svg("g", { "data-at": this.arrivals.length, class: "arrival" });
    const wrong = places.length ? ` [${places.length} wrong]` : "";
    const width = this.lanes.net - this.lanes.mob;
    group.append(svg("rect", { x: this.lanes.mob, y: this.y - ROW - 3, width, height: ROW + 8, class: "hit" }));
    group.append(svg("text", { x: middle, y: this.y - 7, "text-anchor": "middle", class: lost || !report.accepted ? "bad" : "" },
      this.#fit(block.label.slice(0, 60 - wrong.length) + wrong)));
    if (lost) {
      group.append(svg("path", { class: "lost", d: `M${start.x} ${this.y}H${middle}` }));
      group.append(svg("path", { class: "cross", d: `M${middle - 4} ${this.y - 3}l7 7m0 -7l-7 7` }));
    } else {
      group.append(svg("path", { class: "arrow", d: `M${start.x} ${this.y}H${end - step}` }));
      group.append(svg("path", { class: "tip", d: `M${end} ${this.y}l${-8 * step} -4v8z` }));
    }
    this.drawing.append(group);
    this.arrivals.push({ event, group });
  }

  /** Adds the rows of an event: { arrival, notes: [{ side, words, kind }], sent }. */
  add({ arrival, notes, sent }) {
    if (this.events++ === EVENTS) {
      this.#stand(this.y + 4);
      this.#begin(this.y + 4, this.y + 4);
    }
    if (arrival) this.#arrow(arrival);
    for (const { side, words, kind } of notes) this.#note(side, words, kind);
    for (const block of sent) {
      this.y += 4;
      this.#wait(block);
    }
  }

  // sets the height of the last drawing
  #stand(bottom) {
    const height = bottom - this.top;
    this.drawing.setAttribute("height", height);
    this.drawing.setAttribute("viewBox", `0 ${this.top} ${this.width} ${height}`);
    for (const line of this.lines) line.setAttribute("y2", bottom);
  }

  #grow() {
    this.#stand(this.y + 22);
    for (const wait of this.waiting.values()) this.#stretch(wait, this.y + 12);
  }

  /** After the last event that was added. */
  done() {
    this.#grow();
    this.host.scrollTop = this.host.scrollHeight;
  }

  #choose(at, open) {
    this.arrivals[this.chosen]?.group.classList.remove("chosen");
    this.chosen = at;
    const { event, group } = this.arrivals[at];
    group.classList.add("chosen");
    group.scrollIntoView({ block: "nearest" });
    this.look(event, open);
  }

  #key(event) {
    const step = { ArrowUp: -1, ArrowDown: 1 }[event.key];
    const last = this.arrivals.length - 1;
    if (last < 0) return;
    if (step) this.#choose(Math.max(0, Math.min(last, this.chosen < 0 ? last : this.chosen + step)), false);
    else if (event.key === "Enter" && this.chosen >= 0) this.#choose(this.chosen, true);
    else return;
    event.preventDefault();
  }

  /** The chart as an SVG file. */
  file() {
    const whole = svg("svg", { width: this.width, height: this.y + 22 });
    whole.append(svg("style", {}, STYLE));
    for (const drawing of this.host.children) whole.append(...drawing.cloneNode(true).children);
    return new XMLSerializer().serializeToString(whole);
  }
}
