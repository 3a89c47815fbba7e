// The view Block: 23 octets, their encoding into four bursts, the radio path, and the receiver's result.
import { softFromBits } from "../bindings/js/um.mjs";
import { BLOCK, differs, drawnAsSent, encode, noisy } from "./coding.mjs";
import { $, complain, differ, EXAMPLE, h, hex, octetsOf, onWhole, plural, same, save, spaced, valueOf, wholeOf, write } from "./dom.mjs";
import { frameForm } from "./frameform.mjs";
import { blockLines, burstLine, frameLabel, marginLine, repairLine, softOfHex, wordLine } from "./lines.mjs";
import { radioPath, rows } from "./path.mjs";
import { Trace } from "./trace.mjs";

const BURSTS = [0, 1, 2, 3];

export class BlockView {
  constructor(um, changed) {
    Object.assign(this, { um, changed, octets: octetsOf(EXAMPLE), tsc: 7, channel: "sdcch", lost: new Set(), most: 64, recorded: null });
    this.path = radioPath($("b-path"), "b", 592, () => this.draw());
    this.trace = new Trace("b", BLOCK, this.path);
    this.showFrame = frameForm($("b-frame"), "b", () => this.channel, (frame) => {
      this.octets = um.writeFrame(frame, this.channel);
      this.#showOctets();
      this.draw();
    });
    this.#listen();
  }

  #showOctets() {
    $("b-octets").value = hex(this.octets);
    valueOf($("b-octets"), () => 0);
  }

  #listen() {
    const on = (id, event, read) =>
      $(id).addEventListener(event, ({ target }) => {
        read(target);
        this.draw();
      });
    on("b-octets", "input", (input) => (this.octets = valueOf(input, (text) => octetsOf(text, 23)) ?? this.octets));
    on("b-tsc", "change", ({ value }) => (this.tsc = Number(value)));
    on("b-channel", "change", ({ value }) => (this.channel = value));
    onWhole($("b-most"), 1, 64, (value) => {
      this.most = value;
      this.draw();
    });
    on("b-sender-again", "click", () => (this.recorded = null));
    on("b-program", "toggle", () => 0);
    for (const burst of BURSTS) {
      $("b-lost").append(h("label", {}, h("input", { type: "checkbox", id: `b-lost-${burst}` }), ` burst ${burst}`));
      on(`b-lost-${burst}`, "change", ({ checked }) => this.lost[checked ? "add" : "delete"](burst));
    }
    $("b-save").addEventListener("click", () => save("recording.txt", "text/plain", this.recording()));
  }

  #receive() {
    const { um, path } = this;
    const sent = this.recorded ? null : um.sendBlock(this.octets, this.tsc);
    const soft = path.over(this.recorded ?? noisy(sent, path.db, path.seed));
    for (const burst of this.lost) soft.fill(0, 148 * burst, 148 * burst + 148);
    const report = um.receiveBlock(soft);
    return {
      sent, soft, report,
      truth: sent && um.receiveBlock(softFromBits(sent)).word,
      among: um.receiveBlockAmong(soft, this.most),
      margin: um.marginBlock(soft),
      repaired: um.repair(report.word.subarray(0, 224)),
      coded: encode(report.word),
    };
  }

  draw() {
    this.shown = this.#receive();
    const frame = this.um.readFrame(this.octets, this.channel);
    $("b-sender").classList.toggle("stale", this.recorded !== null);
    $("b-recorded").hidden = this.recorded === null;
    this.path.show(this.recorded !== null);
    this.showFrame(frame);
    write($("b-reads"), frame.unread ? `These octets are not a frame on ${this.channel.toUpperCase()}: ${frame.unread}.` : "");
    this.trace.draw(this.shown);
    write($("b-sum"), this.#sum());
    rows($("b-report"), this.#report());
    if ($("b-program").open) this.#drawLines();
    this.changed();
  }

  // -- the report --

  #sum() {
    const { report: { wrongCoded }, margin: { margin } } = this.shown;
    return `The CRC ${this.#crc()[0]}. ${differ(wrongCoded, "coded bit")} from the decoded word; margin ${margin}.`;
  }

  #asSent(octets) {
    if (!octets) return "";
    if (this.recorded) return "good";
    return same(octets, this.octets) ? "good" : "bad";
  }

  #crc() {
    const { report, among } = this.shown;
    if (report.accepted) return ["holds", "good"];
    if (among.accepted) return [`fails; the CRC of the word of rank ${among.rank} holds`, "fair"];
    return [this.most === 1 ? "fails" : `fails, as in each of the ${this.most} likeliest words`, "bad"];
  }

  #accepted() {
    const { accepted } = this.shown.among;
    if (!accepted) return ["none", "bad"];
    const kind = this.#asSent(accepted);
    return [spaced(accepted) + (this.recorded ? "" : kind === "good" ? " (as sent)" : " (not what was sent)"), kind];
  }

  #repair() {
    const { repaired, report, truth } = this.shown;
    if (repaired === null) return "none: no codeword differs only within 12 consecutive bits";
    const { word, first, span } = repaired;
    if (span === 0) return "not needed";
    const turned = word.reduce((count, bit, k) => count + (bit ^ report.word[k]), 0);
    const right = truth && same(word, truth.subarray(0, 224)) ? ": what was sent" : truth ? ": not what was sent" : "";
    return `${plural(turned, "bit")} corrected in u(${first}) to u(${first + span - 1})${right}`;
  }

  #margin() {
    const { margin, word, next } = this.shown.margin;
    if (margin === 0) return "0: another word is as likely";
    return `${margin}; the next word differs in ${plural(next.reduce((count, bit, k) => count + (bit ^ word[k]), 0), "bit")}`;
  }

  #report() {
    const { sent, soft, report, among } = this.shown;
    const unsent = sent && BLOCK.at.filter((place) => differs(soft[place], sent[place])).length;
    return [
      ["crc", "CRC of the most likely word", ...this.#crc()],
      ["octets", "Octets accepted", ...this.#accepted()],
      ["frame", "LAPDm frame", among.accepted ? frameLabel(this.um.readFrame(among.accepted, this.channel)) : "none"],
      ["rank", `Rank of the accepted word, of ${this.most} tried`, among.accepted ? String(among.rank) : "none"],
      ["training", "Training sequence detected", `${report.tsc}, with ${report.wrongTraining} of 104 bits wrong`],
      ["metric", "Path metric", `${report.metric} of 57912`],
      ["wrong", "Coded bits that differ from the decoded word", `${report.wrongCoded} of 456`],
      ["unsent", "Coded bits that differ from what was sent", sent ? `${unsent} of 456` : "unknown in a recording"],
      ["margin", "Margin over the next word", this.#margin()],
      ["repair", "Correction by the CRC", this.#repair()],
    ];
  }

  // -- lines of the program --

  /** The four bursts as received, as lines of `um replay`. */
  recording() {
    return BURSTS.map((b) => `${burstLine("n", this.shown.soft.subarray(148 * b, 148 * b + 148))}\n`).join("");
  }

  lines() {
    const { sent, report, margin, repaired } = this.shown;
    const line = `block ${this.tsc} ${hex(this.octets)}`;
    return {
      code: sent ? [line, BURSTS.map((b) => `n ${sent.subarray(148 * b, 148 * b + 148).join("")}`)] : null,
      replay: [this.recording(), blockLines(this.um, report)],
      margin: [this.recording(), [marginLine(margin, report.metric)]],
      repair: [wordLine(report.word), [repairLine(repaired)]],
    };
  }

  /** Whether what is drawn as the coded bits is what was sent. */
  drawn() {
    return drawnAsSent(BLOCK, this.shown);
  }

  #drawLines() {
    const { code, replay, margin, repair } = this.lines();
    const typed = (command, [line, answers]) => [`$ um ${command} <<< '${line}'`, ...answers, ""];
    const read = (command, [, answers]) => [`$ um ${command} < recording.txt`, ...answers, ""];
    const shown = [...(code ? typed("code", code) : []), ...read("replay", replay), ...read("margin", margin), ...typed("repair", repair)];
    write($("b-lines"), shown.join("\n").trim());
    write($("b-recording"), this.recording());
  }

  // -- the state in the URL --

  set(params) {
    this.octets = octetsOf(params.get("octets") ?? EXAMPLE, 23);
    this.tsc = Number(params.get("tsc") ?? 7) & 7;
    this.channel = params.get("channel") === "sacch" ? "sacch" : "sdcch";
    this.lost = new Set(BURSTS.filter((burst) => (params.get("lost") ?? "").includes(burst)));
    this.most = wholeOf(params.get("most") ?? "64", 1, 64);
    this.recorded = params.has("recorded") ? softOfHex(params.get("recorded"), 592) : null;
    this.path.set(params);
    this.#showOctets();
    for (const name of ["tsc", "channel", "most"]) $(`b-${name}`).value = this[name];
    complain($("b-most"));
    for (const burst of BURSTS) $(`b-lost-${burst}`).checked = this.lost.has(burst);
    this.draw();
  }

  get() {
    return {
      octets: hex(this.octets),
      tsc: this.tsc,
      ...(this.channel === "sacch" && { channel: "sacch" }),
      ...this.path.get(),
      ...(this.lost.size && { lost: BURSTS.filter((burst) => this.lost.has(burst)).join("") }),
      ...(this.most !== 64 && { most: this.most }),
      ...(this.recorded && { recorded: hex(new Uint8Array(this.recorded.buffer)) }),
    };
  }
}
