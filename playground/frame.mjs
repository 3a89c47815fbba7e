// The view Frame: 23 octets to the fields of an LAPDm frame and back, octet by octet, and why octets are not a frame.
import { $, h, hex, octetsOf, valueOf, write } from "./dom.mjs";
import { frameForm } from "./frameform.mjs";
import { frameLine } from "./lines.mjs";

// name, channel, octets before the fill
const EXAMPLES = [
  ["SABM: a mobile opens the link", "sdcch", "013f19050820a3b8c1"],
  ["UA: the network answers with the same information", "sdcch", "017319050820a3b8c1"],
  ["I: one segment of a message, more follow", "sdcch", "030053" + "05".repeat(20)],
  ["RR: ready for the next segment", "sdcch", "012101"],
  ["REJ: retransmit from N(R) on", "sdcch", "014901"],
  ["DISC: release", "sdcch", "015301"],
  ["DM: no link here", "sdcch", "031f01"],
  ["UI without information: the fill frame", "sdcch", "030301"],
  ["SABM of SAPI 3: the link for short messages", "sdcch", "0d3f01"],
  ["UI on SACCH: a measurement report", "sacch", "05000103490615" + "00".repeat(16)],
  ["lpd: another link protocol", "sdcch", "410301"],
  ["ea: the address field continues", "sdcch", "000301"],
  ["control: undefined control octet", "sdcch", "01af01"],
  ["el: the length field continues", "sdcch", "010300"],
  ["length: more than N201 octets", "sdcch", "010355"],
  ["length: information in an RR", "sdcch", "010105aa"],
  ["empty: an I frame without information", "sdcch", "010001"],
  ["more: M in a UI frame", "sdcch", "01030700"],
];

const WHY = {
  lpd: "Bits 8 to 6 of the address octet are not all 0. Bit 8 is spare, and bits 7 and 6, the link protocol discriminator, are 00 in LAPDm "
    + "(01 is the cell broadcast service).",
  ea: "Bit 1 of the address octet, EA, is 0: the address field would continue. An LAPDm address has one octet.",
  control: "No LAPDm frame has this control octet.",
  el: "Bit 1 of the length octet, EL, is 0: the length field would continue. It has one octet in LAPDm.",
  length: "The length L is above N201, which is 20 octets on SDCCH and 18 on SACCH; or L is not 0, though a frame of this kind has no "
    + "information.",
  empty: "This is an I frame with L = 0, but an I frame carries at least one octet.",
  more: "M is 1, so more segments would follow, but only I frames carry segments.",
};

const NAMES = {
  i: "I, information",
  rr: "RR, receive ready",
  rnr: "RNR, receive not ready",
  rej: "REJ, reject",
  sabm: "SABM, set asynchronous balanced mode",
  dm: "DM, disconnected mode",
  ui: "UI, unnumbered information",
  disc: "DISC, disconnect",
  ua: "UA, unnumbered acknowledgement",
};

const bits = (octet) => octet.toString(2).padStart(8, "0");

const address = (octet) => {
  const b = bits(octet);
  return `Address: spare ${b[0]}, LPD ${b.slice(1, 3)}, SAPI ${(octet >> 2) & 7}, C/R ${b[6]}, EA ${b[7]}`;
};

const control = (octet, frame) => {
  const b = bits(octet);
  if (frame.unread) return "Control";
  if (frame.kind === "i") return `Control: N(R) ${frame.nr}, P ${b[3]}, N(S) ${frame.ns}, 0 — ${NAMES.i}`;
  const poll = /^(ua|dm)$/.test(frame.kind) ? "F" : "P";
  if (octet & 2) return `Control: ${b.slice(0, 3)}, ${poll} ${b[3]}, ${b.slice(4)} — ${NAMES[frame.kind]}`;
  return `Control: N(R) ${frame.nr}, P/F ${b[3]}, ${b.slice(4)} — ${NAMES[frame.kind]}`;
};

// the meaning of each of the 23 octets
const meanings = (octets, channel, frame) => {
  const first = channel === "sacch" ? 2 : 0;
  const length = octets[first + 2] >> 2;
  return Array.from(octets, (octet, i) => {
    if (i < first) return "Layer 1 of SACCH: power and timing advance; LAPDm ignores it";
    if (i === first) return address(octet);
    if (i === first + 1) return control(octet, frame);
    if (i === first + 2) return `Length: L ${length}, M ${(octet >> 1) & 1}, EL ${octet & 1}`;
    const n = i - first - 2;
    return n <= length ? `Information, octet ${n} of ${length}` : "Fill";
  });
};

export class FrameView {
  constructor(um, changed) {
    Object.assign(this, { um, changed, channel: "sdcch" });
    this.showFrame = frameForm($("f-frame"), "f", () => this.channel, (frame) => {
      this.octets = um.writeFrame(frame, this.channel);
      this.#showOctets();
      this.draw();
    });
    $("f-octets").addEventListener("input", ({ target }) => {
      this.octets = valueOf(target, (text) => octetsOf(text, 23)) ?? this.octets;
      this.draw();
    });
    $("f-channel").addEventListener("change", ({ target: { value } }) => {
      this.channel = value;
      this.draw();
    });
    EXAMPLES.forEach(([name], i) => $("f-examples").append(h("option", { value: i }, name)));
    $("f-examples").addEventListener("change", ({ target: { value } }) => value !== "" && this.#show(...EXAMPLES[value].slice(1)));
  }

  #showOctets() {
    $("f-octets").value = hex(this.octets);
    valueOf($("f-octets"), () => 0);
  }

  #show(channel, digits) {
    this.channel = channel;
    this.octets = octetsOf(digits.padEnd(46, "2b"), 23);
    $("f-channel").value = channel;
    this.#showOctets();
    this.draw();
  }

  draw() {
    const { um, octets, channel } = this;
    const frame = um.readFrame(octets, channel);
    this.showFrame(frame);
    write($("f-verdict"), frame.unread ? `Not a frame: ${frame.unread}. ${WHY[frame.unread]}` : `A frame: ${NAMES[frame.kind]}.`);
    $("f-verdict").className = `result ${frame.unread ? "bad" : "good"}`;
    write($("f-lines"), `${channel === "sdcch" ? `$ um show <<< 'octets ${hex(octets)}'\n` : ""}${frameLine(frame)}`);
    this.#drawOctets(frame);
    this.changed();
  }

  #drawOctets(frame) {
    const body = $("f-table");
    meanings(this.octets, this.channel, frame).forEach((meaning, i) => {
      const row = body.rows[i] ?? body.appendChild(h("tr", {}, h("th", { scope: "row" }), h("td"), h("td"), h("td")));
      [i + 1, hex([this.octets[i]]), bits(this.octets[i]), meaning].forEach((words, k) => write(row.cells[k], String(words)));
      row.className = meaning === "Fill" ? "dim" : "";
    });
  }

  set(params) {
    $("f-examples").value = "";
    this.#show(params.get("channel") === "sacch" ? "sacch" : "sdcch", params.get("octets") ?? "013f19050820a3b8c1");
  }

  get() {
    return { octets: hex(this.octets), ...(this.channel === "sacch" && { channel: "sacch" }) };
  }
}
