// The view Link: a mobile and a network, the radio path between them, a clock, the chart, and the claims about the session. Data links run
// it slot by slot, or endpoints by hand.
import { Chart } from "./chart.mjs";
import { randomOf } from "./coding.mjs";
import { $, announce, complain, copyText, h, hex, octetsOf, onWhole, plural, save, write } from "./dom.mjs";
import { Session } from "./session.mjs";
import { Slots } from "./slots.mjs";

const NAMES = { mob: "the mobile", net: "the network", mob3: "the mobile (SAPI 3)", net3: "the network (SAPI 3)", rival: "another mobile",
  both: "both" };
const CALLS = { open: "open", send: "send", unit: "send unacknowledged", close: "release", tick: "T200 expires", idle: "fill frame",
  establish: "open without information", channel: "a new channel", return: "back on the old channel" };
const BARE = { mob: "Open without information", net: "Open" };
const MOVES = { "both channel": "Both change the channel", "mob channel": "The mobile alone does", "mob return": "The mobile returns" };
const TO = { up: "to the network", down: "to the mobile" };
const START = { true: { t200: 4, delay: 1 }, false: { t200: 10, delay: 3 } }; // with data links or without
const URL_MOST = 12000; // characters; longer sessions are saved as a file

const short = (octets) => (octets.length > 8 ? `${hex(octets.slice(0, 6))}.. (${octets.length} octets)` : hex(octets) || "no octets");
const sapi3 = (who) => (who.endsWith("3") ? " (SAPI 3)" : "");
const capital = (words) => words[0].toUpperCase() + words.slice(1);

const noticeWords = ({ kind, message, number, reason }) => {
  if (kind === "opened") return message.length ? `opened ${short(message)}` : "opened";
  if (kind === "acked") return `message ${number} acknowledged`;
  if (kind === "closed") return `closed: ${reason === "contention" ? "contention, another mobile has the link" : reason}`;
  if (kind === "oversize") return "a message was too long and is discarded";
  if (kind === "again") return `sends ${short(message)} again`;
  return `got ${kind === "unit" ? "unacknowledged " : ""}${short(message)}`;
};

const callWords = ({ call, octets, who }) => {
  return `${CALLS[call]}${octets ? ` ${short(octets)}` : ""}${sapi3(who)}`;
};

const variableWords = ({ variables: { vs, va, vr } }) => `V(S)=${vs} V(A)=${va} V(R)=${vr}`;

export class LinkView {
  constructor(um, changed, lookAt) {
    const state = { tsc: 0, channel: "sdcch", loop: true, ...START.true, arrives: true };
    Object.assign(this, { um, changed, ...state, random: randomOf(1), quiet: false });
    this.chart = new Chart($("l-chart"), (event, open) => this.#look(event, open));
    this.lookAt = lookAt;
    for (const side of ["mob", "net"]) this.#buildEnd(side);
    for (const way of ["up", "down"]) this.#buildWay(way);
    $("l-moves").append(...Object.entries(MOVES).map(([line, words]) => this.#button(line.replace(" ", "-"), words, () => line)));
    this.#listen();
  }

  // -- controls --

  #button(id, label, line, field) {
    return h("button", { type: "button", id: `l-${id}`, click: () => this.#type(line, field) }, label);
  }

  #input(id, label, value, size) {
    return [
      h("label", {}, `${label} `, h("input", { id: `l-${id}`, value, size, "aria-describedby": `l-${id}-error` })),
      h("span", { id: `l-${id}-error`, class: "error", role: "alert" }),
    ];
  }

  // the octets of an input: hexadecimal digits, or text by UTF-8
  #digits(id) {
    const { value } = $(`l-${id}`);
    return hex(id.endsWith("info") ? octetsOf(value) : new TextEncoder().encode(value)) || "-";
  }

  #buildLink(who) {
    const [text, info] = [`${who}-text`, `${who}-info`];
    const bare = () => [this.#button(`${who}-open`, "Open", () => `${who} open`)];
    const asks = () => this.#button("mob-open", "Open", () => `mob open ${this.#digits(info)}`, `l-${info}`);
    const opens = { mob: () => [...this.#input(info, "information", "01", 6), asks()], net: () => [] }[who] ?? bare;
    const fields = (...content) => h("div", { class: "fields" }, ...content);
    return h("section", { class: "link-end", "aria-label": capital(NAMES[who]) },
      h("h4", {}, who.endsWith("3") ? "SAPI 3, short messages" : "SAPI 0, signalling"),
      h("p", { id: `l-${who}-state`, class: "mono" }),
      fields(...opens(), ...(who.endsWith("3") ? [] : [this.#button(`${who}-establish`, BARE[who], () => `${who} establish`)]),
        this.#button(`${who}-tick`, "T200 expires", () => `${who} tick`),
        this.#button(`${who}-close`, "Release", () => `${who} close`)),
      fields(...this.#input(text, "message", who.endsWith("3") ? "sms" : "hello", 16),
        this.#button(`${who}-send`, "Send", () => `${who} send ${this.#digits(text)}`),
        this.#button(`${who}-unit`, "Send unacknowledged", () => `${who} unit ${this.#digits(text)}`)));
  }

  #buildEnd(side) {
    const rest = [this.#button(`${side}-idle`, "Fill frame", () => `${side} idle`)];
    if (side === "mob") {
      rest.push(...this.#input("rival-info", "information", "02", 6),
        this.#button("rival", "Another mobile sends SABM", () => `rival ${this.#digits("rival-info")}`, "l-rival-info"));
    }
    $(`l-${side}`).append(this.#buildLink(side), this.#buildLink(`${side}3`),
      h("section", { class: "link-end", "aria-label": `${capital(NAMES[side])}, the channel` },
        h("h4", {}, "The channel"), h("div", { class: "fields" }, ...rest)));
  }

  #buildWay(way) {
    const id = `${way}-places`;
    const places = this.#input(id, "wrong bits", "", 14);
    const some = (count) => {
      const click = () => ($(`l-${id}`).value = this.#places(count));
      return h("button", { type: "button", id: `l-${way}-some${count}`, click }, `${count} at random`);
    };
    const damaged = () => `${way} flip ${$(`l-${id}`).value.trim().replace(/[\s,]+/g, " ")}`;
    $(`l-${way}`).append(
      h("ol", { id: `l-${way}-list`, class: "air" }),
      h("div", { class: "fields" }, this.#button(`${way}-deliver`, "Deliver", () => `${way} deliver`),
        this.#button(`${way}-lose`, "Lose", () => `${way} lose`)),
      h("div", { class: "fields" }, ...places, some(3), some(60),
        this.#button(`${way}-flip`, "Deliver damaged", damaged, `l-${id}`)),
      h("p", { id: `l-${way}-last`, class: "dim" }),
    );
  }

  #places(count) {
    const places = new Set();
    while (places.size < count) places.add(Math.floor(this.random() * 592));
    return [...places].sort((a, b) => a - b).join(" ");
  }

  #listen() {
    $("l-new").addEventListener("click", () => this.play([]));
    $("l-undo").addEventListener("click", () => this.play(this.session.lines.slice(0, -1)));
    $("l-play").addEventListener("click", () => this.play($("l-lines").value.split("\n")));
    $("l-save").addEventListener("click", () => save("session.txt", "text/plain", `${this.session.lines.join("\n")}\n`));
    $("l-copy").addEventListener("click", () => copyText($("l-lines").value));
    $("l-save-chart").addEventListener("click", () => save("chart.svg", "image/svg+xml", this.chart.file()));
    $("l-clock").addEventListener("click", () => this.#setClock(!this.clock));
    $("l-step").addEventListener("click", () => this.#step());
    for (const name of ["tsc", "channel"]) {
      $(`l-${name}`).addEventListener("change", ({ target: { value } }) => {
        this[name] = name === "tsc" ? Number(value) : value;
        this.play(this.session.lines);
      });
    }
    $("l-loop").addEventListener("change", ({ target: { value } }) => {
      this.#setLoop(value === "1");
      this.play([]);
    });
    for (const name of ["t200", "delay"]) {
      onWhole($(`l-${name}`), 1, 250, (value) => {
        this[name] = value;
        if (this.loop) this.play(this.session.lines);
        else this.#draw();
      });
    }
    $("l-arrives").addEventListener("change", ({ target: { checked } }) => (this.arrives = checked));
    $("l-answers").parentElement.addEventListener("toggle", () => this.#drawLines());
    let resized;
    addEventListener("resize", () => {
      clearTimeout(resized);
      resized = setTimeout(() => $("link").hidden || this.play(this.session.lines), 300);
    });
  }

  #setLoop(loop, { t200, delay } = START[loop]) {
    Object.assign(this, { loop, t200, delay });
    for (const name of ["t200", "delay"]) $(`l-${name}`).value = this[name];
    $("l-loop").value = loop ? "1" : "0";
    for (const name of ["mob-tick", "mob3-tick", "net-tick", "net3-tick", "mob-idle"]) $(`l-${name}`).hidden = loop;
    $("l-net-idle").closest("section").hidden = loop;
    for (const name of ["mob-establish", "net-establish", "moves"]) $(`l-${name}`).hidden = !loop;
    write($("l-lines-title"), loop ? "The session as lines" : "The session as lines of um link");
    write($("l-answers-title"), loop ? "Answers" : "Answers, as the program prints them");
  }

  // runs a line from a button; an invalid line is explained beside its input
  #type(lineOf, field) {
    try {
      this.run(lineOf());
      if (field) complain($(field));
    } catch (error) {
      if (!field) throw error;
      complain($(field), error.message);
    }
  }

  // -- lines --

  /** Runs one line, and draws what came of it. */
  run(line) {
    const events = [this.session.run(line)].flat();
    this.now = this.session.slots ?? this.now;
    const sentences = events.map((event) => this.#add(event));
    if (!this.quiet) {
      announce(sentences.join(" "));
      this.chart.done();
      this.#draw();
    }
  }

  /** Plays lines from the start of a new session; those before a bad line stand. */
  play(lines) {
    const { tsc, channel, t200, delay } = this;
    this.session = this.loop ? new Slots(this.um, { tsc, channel, t200, delay }) : new Session(this.um, { tsc, channel });
    this.started = {};
    this.sentAt = new Map();
    this.now = 0;
    this.chart.clear();
    $("l-words").replaceChildren();
    this.quiet = true;
    let said = "";
    for (const [i, line] of lines.entries()) {
      if (line === "" || line.startsWith("#")) continue;
      try {
        this.run(line);
      } catch (error) {
        said = `Line ${i + 1}, "${line.slice(0, 40)}": ${error.message}`;
        break;
      }
    }
    this.quiet = false;
    write($("l-lines-error"), said);
    this.chart.done();
    this.#draw();
  }

  #add(event) {
    const { who, call, block, notices, sent, refused, why, report, lost } = event;
    const notes = [];
    const changes = new Map();
    const note = (end, words, kind) => notes.push({ side: end.replace("3", ""), words, kind });
    if (block && !lost && !report.accepted) note(event.to, "CRC fails: the block is discarded", "bad");
    if (!block && !refused && call !== "slot") for (const end of who === "both" ? ["mob", "net"] : [who]) note(end, callWords(event), "call");
    if (refused && NAMES[who] && who !== "both") note(who, `${callWords(event)}: refused, ${why}`, "bad");
    for (const { who: end, notice } of notices) {
      note(end, noticeWords(notice) + sapi3(end), notice.kind === "closed" && notice.reason !== "released" ? "bad" : "good");
    }
    for (const [end, state] of Object.entries(this.session.ends)) {
      const words = variableWords(state);
      if ((this.started[`${end}v`] ?? "V(S)=0 V(A)=0 V(R)=0") !== words) changes.set(end, words);
      this.started[`${end}v`] = words;
    }
    for (const [end, words] of changes) note(end, words + sapi3(end), "dim");
    this.chart.add({ arrival: block ? event : null, notes, sent });
    this.#startTimers(event);
    return this.#say(event);
  }

  // T200 restarts with each SABM, DISC and I frame that an end sends, and stops when no frame awaits an answer
  #startTimers({ sent }) {
    for (const { id, who, frame } of sent) {
      this.sentAt.set(id, this.now);
      if (this.session.ends[who] && /^(sabm|disc|i)$/.test(frame.kind)) this.started[who] = this.now;
    }
  }

  // the event as a sentence, for the list of words and for a screen reader
  #say({ who, call, octets, block, lost, report, refused, why, notices, sent, line, places = [] }) {
    const parts = [];
    if (refused) parts.push(`${line.slice(0, 60)} is refused: ${why}`);
    else if (call === "slot") parts.push(`slot ${this.now}`);
    else if (!block) parts.push(`${NAMES[who]}: ${callWords({ who: "", call, octets })}`);
    else if (lost) parts.push(`${block.label} ${TO[who]} is lost`);
    else {
      const damage = places.length ? ` with ${plural(places.length, "wrong bit")}` : "";
      parts.push(`${block.label} ${TO[who]} arrives${damage}${report.accepted ? "" : " and is discarded, because its CRC fails"}`);
    }
    for (const { who: end, notice } of notices) parts.push(`${NAMES[end]} ${noticeWords(notice)}`);
    for (const { from, label } of sent) parts.push(`${NAMES[from]} sends ${label}`);
    const sentence = `${capital(parts.join("; "))}.`;
    $("l-words").append(h("li", {}, sentence));
    return sentence;
  }

  #look(event, open) {
    const { block, lost, places = [] } = event;
    announce(`${block.label}${lost ? ", lost" : ""}`);
    if (open && !lost) {
      this.lookAt({ octets: hex(block.octets), tsc: this.tsc, channel: this.channel, ...(places.length && { flips: places.join(".") }) });
    }
  }

  // -- display --

  #draw() {
    for (const who of Object.keys(this.session.ends)) this.#drawEnd(who);
    for (const way of ["up", "down"]) this.#drawWay(way);
    write($("l-time"), `${this.loop ? "slot" : "time"} ${this.now}`);
    this.#drawClaims();
    clearTimeout(this.later);
    this.later = setTimeout(() => this.#drawLines(), 100);
    this.changed();
  }

  // laying out a long text is slow, so this waits until nothing more happens
  #drawLines() {
    const lines = this.session.lines.map((line) => `${line}\n`).join("");
    if (document.activeElement !== $("l-lines")) $("l-lines").value = lines;
    if ($("l-answers").parentElement.open) write($("l-answers"), this.session.answers.join("\n"));
  }

  #drawEnd(who) {
    const end = this.session.ends[who];
    const { held, retries } = end.variables;
    const runs = end.timerRuns;
    const since = this.now - (this.started[who] ?? this.now);
    const at = this.loop ? "T200 runs" : `T200 at ${since} of ${this.t200}`;
    const timer = runs ? `${at}${retries ? `, expired ${plural(retries, "time")}` : ""}` : "T200 stopped";
    write($(`l-${who}-state`), `${end.state} · ${variableWords(end)} · ${held} held · ${timer}`);
    $(`l-${who}-tick`).disabled = !runs;
  }

  #drawWay(way) {
    const queue = this.session.air[way];
    const items = queue.map(({ from, label }) => h("li", {}, `${from === "rival" ? "another mobile: " : ""}${label}`));
    $(`l-${way}-list`).replaceChildren(...(items.length ? items : [h("li", { class: "dim none" }, "nothing on the air")]));
    const last = this.chart.arrivals.findLast(({ event }) => event.who === way && !event.lost);
    const click = () => this.#look(last.event, true);
    const look = h("button", { type: "button", id: `l-${way}-look`, click }, "Show it as received");
    $(`l-${way}-last`).replaceChildren(...(last ? [`Arrived last: ${last.event.block.label} `, look] : []));
  }

  #drawClaims() {
    const says = (ok, words) => h("td", { class: ok ? "good" : "bad" }, `${ok ? "✓" : "✗"} ${words}`);
    const used = Object.keys(this.session.ends).filter((who) => !who.endsWith("3") || this.session.claims[who].taken.length);
    $("l-claims").replaceChildren(...used.map((who) => {
      const { taken, handed, acked, front, acknowledged } = this.session.claim(who);
      return h("tr", {}, h("th", { scope: "row" }, `from ${NAMES[who]}`), h("td", {}, String(taken)),
        says(front, `${handed}${handed ? ": a prefix, each once" : ""}`),
        says(acknowledged, `${acked}${acked ? ": each delivered before" : ""}`));
    }));
    write($("l-air"), this.session.altered
      ? `${plural(this.session.altered, "block")} passed the CRC with wrong octets. The claims do not cover such a radio path.`
      : `Every block was lost, discarded, or accepted as it was sent. ${this.loop
        ? "It is proved that the claims hold for two data links, while each link is opened once."
        : "It is proved that the claims hold in every such session."}`);
  }

  // -- the clock --

  #setClock(on) {
    clearInterval(this.clock);
    this.clock = on ? setInterval(() => this.#step(), 250) : null;
    write($("l-clock"), on ? "Stop the clock" : "Start the clock");
  }

  // one step of time: blocks whose delay is over arrive, and then T200 expires where it is due; a data link counts it itself
  #step() {
    if (this.loop) return this.run(this.arrives ? "slot" : "slot hold");
    this.now++;
    for (const way of this.arrives ? ["up", "down"] : []) {
      const first = this.session.air[way][0];
      if (first && this.now - this.sentAt.get(first.id) >= this.delay) this.run(`${way} deliver`);
    }
    for (const [who, end] of Object.entries(this.session.ends)) {
      if (end.timerRuns && this.now - (this.started[who] ?? 0) >= this.t200) this.run(`${who} tick`);
    }
    this.#draw();
  }

  leave() {
    this.#setClock(false);
  }

  // -- the state in the URL --

  set(params) {
    this.tsc = Number(params.get("tsc") ?? 0) & 7;
    this.channel = params.get("channel") === "sacch" ? "sacch" : "sdcch";
    const loop = params.has("loop") ? params.get("loop") === "1" : !params.has("lines");
    const whole = (name) => Math.min(250, Math.max(1, Number(params.get(name)) || START[loop][name]));
    this.#setLoop(loop, { t200: whole("t200"), delay: whole("delay") });
    for (const name of ["tsc", "channel"]) $(`l-${name}`).value = this[name];
    for (const name of ["t200", "delay"]) complain($(`l-${name}`));
    const lines = params.get("lines") ?? "";
    if (lines.length > URL_MOST) {
      throw new Error(`its session has ${lines.length} characters, and an address at most ${URL_MOST}; paste its lines below`);
    }
    this.play(lines.split(".").map((line) => line.replaceAll("_", " ")));
  }

  get() {
    const lines = this.session.lines.join(".").replaceAll(" ", "_");
    write($("l-long"), lines.length > URL_MOST ? "The session is too long for the address of the page; save its lines." : "");
    return {
      ...(this.tsc && { tsc: this.tsc }),
      ...(this.channel === "sacch" && { channel: "sacch" }),
      ...(this.loop !== !lines && { loop: this.loop ? 1 : 0 }),
      ...(this.t200 !== START[this.loop].t200 && { t200: this.t200 }),
      ...(this.delay !== START[this.loop].delay && { delay: this.delay }),
      ...(lines && lines.length <= URL_MOST && { lines }),
    };
  }
}
