// The lines of `um code`, `replay`, `margin`, `repair` and `show` for the state of the page.
import { bitsOf, hex, octetsOf, octetsOfBits } from "./dom.mjs";

const HAS_INFO = /^(i|sabm|ui|ua)$/;
const HAS_NR = /^(i|rr|rnr|rej)$/;
const pollName = (kind) => (/^(dm|ua)$/.test(kind) ? "f" : /^(rr|rnr|rej)$/.test(kind) ? "pf" : "p");

export const has = (kind, field) =>
  ({ ns: kind === "i", nr: HAS_NR.test(kind), more: kind === "i", info: HAS_INFO.test(kind) })[field] ?? true;

export const frameLine = (frame) => {
  if (frame.unread) return `unread ${frame.unread}`;
  const { kind, sapi, cr, pf, ns, nr, more, info } = frame;
  const words = [`frame sapi ${sapi} cr ${cr} ${kind}`];
  if (kind === "i") words.push(`ns ${ns}`);
  if (HAS_NR.test(kind)) words.push(`nr ${nr}`);
  words.push(`${pollName(kind)} ${pf}`);
  if (kind === "i") words.push(`m ${more}`);
  if (HAS_INFO.test(kind)) words.push(`info ${hex(info) || "-"}`);
  return words.join(" ");
};

/** The label of a frame in the chart: I N(S)=0 N(R)=0 M 0601. */
export const frameLabel = (frame) => {
  if (frame.unread) return `not a frame (${frame.unread})`;
  const { kind, sapi, pf, ns, nr, more, info } = frame;
  const words = [kind.toUpperCase()];
  if (kind === "i") words.push(`N(S)=${ns}`);
  if (HAS_NR.test(kind)) words.push(`N(R)=${nr}`);
  if (more) words.push("M");
  if (pf) words.push(pollName(kind) === "pf" ? "P/F" : pollName(kind).toUpperCase());
  if (info.length) words.push(info.length > 6 ? `${hex(info.slice(0, 4))}.. (${info.length} octets)` : hex(info));
  if (sapi) words.push(`SAPI ${sapi}`);
  return words.join(" ");
};

const said = (accepted) => (accepted ? "ok" : "bad");
const checkOf = (word) => hex(octetsOfBits(word.subarray(184, 224)));
const dataOf = (word) => hex(octetsOfBits(word.subarray(0, 184)));

export const blockLines = (um, { tsc, wrongTraining, metric, accepted, word }) => [
  `block tsc ${tsc} train ${wrongTraining} metric ${metric} parity ${said(accepted)} data ${dataOf(word)} check ${checkOf(word)}`,
  ...(accepted ? [frameLine(um.readFrame(accepted))] : []),
];

export const marginLine = ({ margin, word, next }, metric) =>
  `block margin ${margin} metric ${metric} data ${dataOf(word)} check ${checkOf(word)} next ${dataOf(next)} ${checkOf(next)}`;

export const singleLine = (name, { wrongTraining, metric, accepted, word }, data, crc) =>
  `${name} train ${wrongTraining} metric ${metric} parity ${said(accepted)} data ${word.subarray(0, data).join("")} check ${word
    .subarray(data, data + crc)
    .join("")}`;

export const wordLine = (word) => `word ${dataOf(word)} ${checkOf(word)}`;

export const repairLine = (repaired) => {
  if (repaired === null) return "none";
  const { word, first, span } = repaired;
  return span === 0 ? "holds" : `repaired first ${first} span ${span} data ${dataOf(word)} check ${checkOf(word)}`;
};

// -- recordings --

/** A burst as a line of a recording: hard bits where all are sure, else soft ones; `lost` where nothing is known of a normal burst. */
export const burstLine = (letter, soft, bsic = "") => {
  const between = bsic ? `${bsic} ` : "";
  if (letter === "n" && soft.every((value) => value === 0)) return "lost";
  if (soft.every((value) => Math.abs(value) === 127)) return `${letter} ${between}${Array.from(soft, (v) => (v < 0 ? 1 : 0)).join("")}`;
  return `${letter.toUpperCase()} ${between}${hex(new Uint8Array(Int8Array.from(soft).buffer))}`;
};

export const softOfHex = (digits, count) => {
  const soft = new Int8Array(octetsOf(digits, count).buffer);
  if (soft.includes(-128)) throw new Error("a soft bit is 80, that is -128; expected -127 to 127");
  return soft;
};

const LENGTHS = { n: 148, a: 88, s: 148 };

const burstOf = (line) => {
  const words = line.split(" ");
  const letter = words[0].toLowerCase();
  if (line === "lost") return { letter: "n", soft: new Int8Array(148) };
  if (!/^[nas]$/i.test(words[0]) || words.length !== (letter === "a" ? 3 : 2)) {
    throw new Error("expected n, N, s or S and a burst, a or A, a BSIC and a burst, or lost");
  }
  const digits = words.at(-1);
  const count = LENGTHS[letter];
  const soft = letter === words[0] ? Int8Array.from(bitsOf(digits, count), (bit) => (bit ? -127 : 127)) : softOfHex(digits, count);
  return { letter, soft, bsic: letter === "a" ? bitsOf(words[1], 6).join("") : undefined };
};

/** What a recording holds: { letter, soft, bsic } of each block (n) and burst (a, s), in their order. */
export const readRecording = (text) => {
  const found = [];
  let block = [];
  text.split("\n").forEach((line, i) => {
    if (line === "" || line.startsWith("#")) return;
    try {
      const burst = burstOf(line);
      if (burst.letter !== "n" && block.length) throw new Error("a burst of another kind interrupts a block of four");
      if (burst.letter !== "n") found.push(burst);
      else if (block.push(...burst.soft) === 592) {
        found.push({ letter: "n", soft: Int8Array.from(block) });
        block = [];
      }
    } catch (error) {
      throw new Error(`Line ${i + 1}: ${error.message}`);
    }
  });
  if (block.length) throw new Error("The recording ends inside a block of four bursts");
  return found;
};

export const replayLines = (um, { letter, soft, bsic }) => {
  if (letter === "n") return blockLines(um, um.receiveBlock(soft));
  if (letter === "s") return [singleLine("sync", um.receiveSync(soft), 25, 10)];
  return [singleLine(`access ${bsic}`, um.receiveAccess(soft, Array.from(bsic, Number)), 8, 6)];
};
