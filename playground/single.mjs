// The view Bursts: the access burst of RACH and the synchronisation burst of SCH, each sent alone.
import { softFromBits } from "../bindings/js/um.mjs";
import { ACCESS, differs, drawnAsSent, encode, noisy, SYNC } from "./coding.mjs";
import { $, bitsOf, differ, h, hex, same, save, valueOf, write } from "./dom.mjs";
import { burstLine, singleLine, softOfHex } from "./lines.mjs";
import { radioPath, rows } from "./path.mjs";
import { Trace } from "./trace.mjs";

const KINDS = {
  access: {
    title: "Access burst (RACH)", layout: ACCESS, letter: "a", info: "11000101", label: "Channel request, 8 bits",
    most: 4572, training: 41, chance: "once in 64 words",
  },
  sync: {
    title: "Synchronisation burst (SCH)", layout: SYNC, letter: "s", info: "1010110010000011110101110",
    label: "BSIC and reduced frame number, 25 bits", most: 9906, training: 64, chance: "once in 1,024 words",
  },
};

const ABOUT = "Point at a bit, or move to it with the arrow keys, to see where it comes from. In the burst, click it or press Space to "
  + "flip it.";

class SingleBurst {
  constructor(um, name, host, changed) {
    const kind = KINDS[name];
    Object.assign(this, { um, name, kind, host, changed, info: kind.info, bsic: "111000", heard: "111000", recorded: null });
    this.access = name === "access";
    this.parts = kind.layout.word;
    this.#build();
    this.path = radioPath($(`${name}-path`), name, kind.layout.places.length, () => this.draw());
    this.trace = new Trace(name, kind.layout, this.path);
  }

  #id(part) {
    return `${this.name}-${part}`;
  }

  #input(part, label, count) {
    const error = this.#id(`${part}-error`);
    const read = ({ target }) => {
      this[part] = valueOf(target, (text) => bitsOf(text, count))?.join("") ?? this[part];
      this.draw();
    };
    const field = h("input", { id: this.#id(part), class: "mono", size: count + 1, spellcheck: "false", input: read });
    field.setAttribute("aria-describedby", error);
    return [h("label", {}, `${label} `, field), h("span", { id: error, class: "error", role: "alert" })];
  }

  #build() {
    const section = (kind, heading, ...content) => h("section", { class: kind }, h("h3", {}, heading), ...content);
    const card = (...content) => section("card", ...content);
    const result = (...content) => section("card result", ...content);
    const part = (heading, name) => [h("h4", {}, heading), h("div", { id: this.#id(name) })];
    const again = h("button", { type: "button", click: () => {
      this.recorded = null;
      this.draw();
    } }, "Back to the sender");
    const info = [...this.#input("info", this.kind.label, this.parts.data), ...(this.access ? this.#input("bsic", "BSIC", 6) : [])];
    this.program = h("pre", { tabindex: 0, "aria-label": "Lines of the program" });
    this.host.append(
      h("div", { class: "cards" },
        card("Sender", h("div", { class: "fields" }, ...info),
          h("p", { id: this.#id("recorded"), hidden: true }, "A recording replaces the sender. ", again)),
        card("Radio path", h("div", { id: this.#id("path") }),
          ...(this.access ? [h("div", { class: "fields" }, ...this.#input("heard", "BSIC of the receiver", 6))] : []))),
      h("p", { class: "last-valid fair", role: "status" }, "Shown for the last valid input:"),
      result("Bits",
        h("div", { class: "about" }, h("p", { id: this.#id("sum"), role: "status" }), h("p", { id: this.#id("about") }, ABOUT)),
        ...part("The decoded word", "word"), ...part("Its coded bits", "coded"), ...part("The burst as received", "burst")),
      result("Result", h("table", { id: this.#id("report"), class: "report" })),
      h("details", { class: "card result" }, h("summary", {}, "The program's lines"), this.program,
        h("button", { type: "button", click: () => save("recording.txt", "text/plain", `${this.recording()}\n`) }, "Save as a recording")),
    );
  }

  #send() {
    const info = bitsOf(this.info, this.parts.data);
    return this.access ? this.um.sendAccess(info, bitsOf(this.bsic, 6)) : this.um.sendSync(info);
  }

  #receive(soft, bsic) {
    return this.access ? this.um.receiveAccess(soft, bitsOf(bsic, 6)) : this.um.receiveSync(soft);
  }

  draw() {
    const { path } = this;
    const sent = this.recorded ? null : this.#send();
    const soft = path.over(this.recorded ?? noisy(sent, path.db, path.seed));
    const report = this.#receive(soft, this.heard);
    const truth = sent && this.#receive(softFromBits(sent), this.bsic).word;
    this.shown = { sent, soft, report, truth, coded: encode(report.word) };
    path.show(this.recorded !== null);
    $(this.#id("recorded")).hidden = this.recorded === null;
    this.trace.draw(this.shown);
    const { accepted, wrongCoded } = report;
    const wrong = `${differ(wrongCoded, "coded bit")} from the decoded word`;
    write($(this.#id("sum")), `The CRC ${accepted ? "holds" : "fails"}. ${wrong}.`);
    rows($(this.#id("report")), this.#report());
    write(this.program, this.#linesText());
    this.changed();
  }

  #report() {
    const { sent, soft, report: { accepted, wrongTraining, metric, wrongCoded } } = this.shown;
    const { layout: { at }, training, most, chance } = this.kind;
    const right = accepted && (!sent || same(accepted, bitsOf(this.info, this.parts.data)));
    const unsent = sent && at.filter((place) => differs(soft[place], sent[place])).length;
    return [
      ["crc", this.access ? "CRC for the receiver's BSIC" : "CRC", accepted ? "holds" : "fails", accepted ? "good" : "bad"],
      ["info", "Accepted bits", accepted ? accepted.join("") + (!sent ? "" : right ? " (as sent)" : " (not what was sent)") : "none",
        right ? "good" : "bad"],
      ["training", "Wrong bits of the training sequence", `${wrongTraining} of ${training}`],
      ["metric", "Path metric", `${metric} of ${most}`],
      ["wrong", "Coded bits that differ from the decoded word", `${wrongCoded} of ${at.length}`],
      ["unsent", "Coded bits that differ from what was sent", sent ? `${unsent} of ${at.length}` : "unknown in a recording"],
      ["chance", "A wrong word has a valid CRC by chance", chance],
    ];
  }

  recording() {
    return burstLine(this.kind.letter, this.shown.soft, this.access ? this.heard : "");
  }

  /** What `um code` and `um replay` are asked, and what they answer. */
  lines() {
    const { sent, report } = this.shown;
    const bsic = this.access ? `${this.bsic} ` : "";
    const code = this.access ? `rach ${this.info} ${this.bsic}` : `sch ${this.info}`;
    const name = this.access ? `access ${this.heard}` : "sync";
    return {
      code: sent ? [code, `${this.kind.letter} ${bsic}${sent.join("")}`] : null,
      replay: [this.recording(), singleLine(name, report, this.parts.data, this.parts.crc)],
    };
  }

  #linesText() {
    return Object.entries(this.lines()).filter(([, said]) => said)
      .map(([command, [line, answer]]) => `$ um ${command} <<< '${line}'\n${answer}`).join("\n\n");
  }

  /** Whether what is drawn as the coded bits is what was sent. */
  drawn() {
    return drawnAsSent(this.kind.layout, this.shown);
  }

  set(params) {
    this.info = bitsOf(params.get("info") ?? this.kind.info, this.parts.data).join("");
    this.bsic = bitsOf(params.get("bsic") ?? "111000", 6).join("");
    this.heard = bitsOf(params.get("heard") ?? this.bsic, 6).join("");
    this.recorded = params.has("recorded") ? softOfHex(params.get("recorded"), this.kind.layout.places.length) : null;
    this.path.set(params);
    for (const part of this.access ? ["info", "bsic", "heard"] : ["info"]) {
      $(this.#id(part)).value = this[part];
      valueOf($(this.#id(part)), () => 0);
    }
    this.draw();
  }

  get() {
    return {
      kind: this.name,
      info: this.info,
      ...(this.access && { bsic: this.bsic }),
      ...(this.access && this.heard !== this.bsic && { heard: this.heard }),
      ...this.path.get(),
      ...(this.recorded && { recorded: hex(new Uint8Array(this.recorded.buffer)) }),
    };
  }
}

export class BurstsView {
  constructor(um, changed) {
    this.kinds = {};
    this.now = "access";
    for (const name of Object.keys(KINDS)) {
      this.kinds[name] = new SingleBurst(um, name, $(`s-${name}`), () => name === this.now && changed());
      $("s-kind").append(h("option", { value: name }, KINDS[name].title));
    }
    $("s-kind").addEventListener("change", ({ target: { value } }) => {
      this.#show(value, this.kinds[value].shown ? this.kinds[value].get() : {});
    });
  }

  get shown() {
    return this.kinds[this.now].shown;
  }

  lines() {
    return this.kinds[this.now].lines();
  }

  drawn() {
    return this.kinds[this.now].drawn();
  }

  #show(name, params) {
    this.now = name;
    $("s-kind").value = name;
    for (const [other, kind] of Object.entries(this.kinds)) kind.host.hidden = other !== name;
    this.kinds[name].set(new URLSearchParams(params));
  }

  set(params) {
    this.#show(params.get("kind") === "sync" ? "sync" : "access", params);
  }

  get() {
    return this.kinds[this.now].get();
  }
}
