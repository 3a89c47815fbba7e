// Compares the module's answers with the vectors, with the repairs, and with the native library's answers (answers.c) to 2,000 noisy
// blocks, 20,000 calls of endpoints and 20,000 of sides. It runs in node and, in a page and in a Worker, in browsers.
import { REASONS, NOTICES, REFUSALS, Refused, softFromBits } from "../um.mjs";

const hex = (octets) => Array.from(octets, (octet) => octet.toString(16).padStart(2, "0")).join("");
const octetsOf = (digits) => Uint8Array.from(digits.match(/../g) ?? [], (pair) => parseInt(pair, 16));
const bitsOf = (digits) => Uint8Array.from(digits, Number);
const lines = (text) => text.trim().split("\n");

// -- the vectors, which libosmocoding made --

const sentFor = (um, [kind, first, second]) => {
  if (kind === "block") {
    const bursts = um.sendBlock(octetsOf(second), Number(first));
    return [0, 148, 296, 444].map((at) => `n ${bursts.subarray(at, at + 148).join("")}`);
  }
  if (kind === "rach") return [`a ${second} ${um.sendAccess(bitsOf(first), bitsOf(second)).join("")}`];
  return [`s ${um.sendSync(bitsOf(first)).join("")}`];
};

const receivedAs = (um, [kind, first, second]) => {
  if (kind === "block") {
    const { accepted, tsc, metric } = um.receiveBlock(softFromBits(um.sendBlock(octetsOf(second), Number(first))));
    return hex(accepted ?? []) === second && tsc === Number(first) && metric === 57912;
  }
  const access = kind === "rach";
  const report = access
    ? um.receiveAccess(softFromBits(um.sendAccess(bitsOf(first), bitsOf(second))), bitsOf(second))
    : um.receiveSync(softFromBits(um.sendSync(bitsOf(first))));
  return (report.accepted ?? []).join("") === first && report.metric === (access ? 4572 : 9906);
};

const vectors = (um, { codeIn, codeOut }) => {
  const asked = lines(codeIn).map((line) => line.split(" "));
  const sent = asked.flatMap((words) => sentFor(um, words));
  const wanted = lines(codeOut);
  const wrong = wanted.filter((line, i) => line !== sent[i]).length + asked.filter((words) => !receivedAs(um, words)).length;
  return { name: `${asked.length} vectors`, wrong: wrong + Math.abs(wanted.length - sent.length) };
};

// -- the repairs --

const bitsOfOctets = (digits) => Array.from(octetsOf(digits)).flatMap((octet) => [0, 1, 2, 3, 4, 5, 6, 7].map((i) => (octet >> i) & 1));
const octetsOfBits = (bits) =>
  hex(Array.from({ length: bits.length / 8 }, (_, i) => bits.slice(8 * i, 8 * i + 8).reduce((octet, bit, j) => octet | (bit << j), 0)));

const repairedAs = (um, line) => {
  const [, data, check] = line.split(" ");
  const repaired = um.repair(bitsOfOctets(data + check));
  if (repaired === null) return "none";
  const { word, first, span } = repaired;
  if (span === 0) return "holds";
  return `repaired first ${first} span ${span} data ${octetsOfBits(word.slice(0, 184))} check ${octetsOfBits(word.slice(184))}`;
};

const repairs = (um, { repairIn, repairOut }) => {
  const wanted = lines(repairOut);
  return { name: `${wanted.length} repairs`, wrong: lines(repairIn).filter((line, i) => repairedAs(um, line) !== wanted[i]).length };
};

// -- the native library's answers; the random numbers are those of answers.c --

let drawn;
const draw = (below) => {
  drawn ^= drawn << 13;
  drawn ^= drawn >>> 17;
  drawn ^= drawn << 5;
  return (drawn >>> 8) % below;
};
const drawOctets = (count) => Array.from({ length: count }, () => draw(256));

const noisy = (bit, level, lost) => {
  const noise = draw(256) + draw(256) + draw(256) + draw(256) - 510;
  return lost ? 0 : Math.max(-127, Math.min(127, (bit ? -64 : 64) + Math.trunc((noise * level) / 256)));
};

const noisyBlock = (um, number) => {
  const level = 30 + (number % 25) * 4;
  const lost = number % 10 === 7 ? draw(4) : -1;
  return Int8Array.from(um.sendBlock(drawOctets(23), number % 8), (bit, i) => noisy(bit, level, Math.floor(i / 148) === lost));
};

const reportLine = (name, { accepted, metric, wrongTraining, wrongCoded, tsc, word }) =>
  [name, accepted ? 1 : 0, metric, wrongTraining, wrongCoded, tsc, hex(accepted ?? new Uint8Array(23)), word.join("")].join(" ");

const blockLines = (um, number) => {
  const soft = noisyBlock(um, number);
  const among = um.receiveBlockAmong(soft, 64);
  const { margin, word, next } = um.marginBlock(soft);
  return [
    reportLine("receive", um.receiveBlock(soft)),
    `${reportLine("among", among)} ${among.rank}`,
    `margin ${margin} ${word.join("")} ${next.join("")}`,
  ];
};

// one in eight blocks is lost, and one in thirty of the others has a wrong bit
const arrived = (queue) => {
  const octets = queue.shift();
  if (octets === undefined || draw(8) === 0) return null;
  if (draw(30) === 0) {
    const at = draw(5);
    octets[at] ^= 1 << draw(8);
  }
  return octets;
};

const pair = (make) => ({ states: ["mobile", "network"].map(make), queues: [[], []] });
const begunEnds = (um) => {
  const sapi = draw(2) ? 3 : 0;
  const channel = draw(2) ? "sacch" : "sdcch";
  return pair((role) => um.end(role, { sapi, channel }));
};
const begunSides = (um) => {
  const channel = draw(2) ? "sacch" : "sdcch";
  return pair((role) => um.side(role, { channel }));
};

const END_CALLS = [
  (end) => end.open(drawOctets(draw(22))),
  (end) => end.openBare(),
  (end) => end.send(drawOctets(draw(256))),
  (end) => end.send(drawOctets(draw(60))),
  (end) => end.unit(drawOctets(draw(23))),
  (end) => (draw(20) ? null : end.close()),
  (end) => end.timer(),
  (end) => end.idle(),
];
const SIDE_CALLS = [
  (side) => side.open(drawOctets(draw(22))),
  (side) => side.openBare(),
  (side, sapi) => side.send(sapi, drawOctets(draw(256))),
  (side, sapi) => side.send(sapi, drawOctets(draw(60))),
  (side, sapi) => side.unit(sapi, drawOctets(draw(23))),
  (side, sapi) => (draw(20) ? null : side.close(sapi)),
  (side, sapi) => side.timer(sapi),
  (side) => side.idle(),
];

const called = (calls, { states, queues }, who) => {
  const sapi = calls === SIDE_CALLS && draw(2) ? 3 : 0;
  const call = calls[draw(12)];
  try {
    if (call) return { answer: 0, ...(call(states[who], sapi) ?? { answer: -1 }) };
    const octets = arrived(queues[1 - who]);
    return octets === null ? { answer: -1 } : { answer: 0, ...states[who].take(octets) };
  } catch (error) {
    if (error instanceof Refused) return { answer: 1 + REFUSALS.indexOf(error.reason) };
    throw error;
  }
};

const hash = (bytes) => bytes.reduce((h, octet) => Math.imul(h ^ octet, 16777619), 2166136261 | 0) >>> 0;

const noticeWords = ({ kind, number = 0n, reason, message = [] }) =>
  ` ${1 + NOTICES.indexOf(kind)},${number},${reason ? REASONS.indexOf(reason) : 0},${hex(message)}`;

const callLine = (calls, session, begin) => {
  const who = draw(2);
  if (draw(300) === 0) Object.assign(session, begin());
  const { answer, frames = [], notices = [], sapi = 9 } = called(calls, session, who);
  for (const frame of frames) if (session.queues[who].length < 16) session.queues[who].push(Uint8Array.from(frame));
  const said = notices.map(noticeWords).join("") + frames.map((frame) => ` ${hex(frame)}`).join("");
  const line = `${answer} ${hash(session.states[who].toBytes().subarray(4))}${said}`;
  return calls === SIDE_CALLS ? `side ${line} ${sapi}` : `end ${line}`;
};

const callLines = (calls, count, begin) => {
  const session = begin();
  return Array.from({ length: count }, () => callLine(calls, session, begin));
};

const native = (um, answers) => {
  const wanted = lines(answers);
  const [blocks, ends, sides] = ["receive ", "end ", "side "].map((word) => wanted.filter((line) => line.startsWith(word)).length);
  drawn = 2463534242 | 0;
  const given = [
    ...Array.from({ length: blocks }, (_, i) => blockLines(um, i)).flat(),
    ...callLines(END_CALLS, ends, () => begunEnds(um)),
    ...callLines(SIDE_CALLS, sides, () => begunSides(um)),
  ];
  const wrong = wanted.filter((line, i) => line !== given[i]);
  return { name: `${blocks} noisy blocks, ${ends} calls of ends and ${sides} of sides`, wrong: wrong.length, first: wrong[0] };
};

/** Runs all comparisons; `texts` has codeIn, codeOut, repairIn, repairOut and answers. */
export const compare = (um, texts) => [vectors(um, texts), repairs(um, texts), native(um, texts.answers)];

/** Microseconds per call, the minimum over `rounds`. */
export const times = (um, rounds = 15) => {
  drawn = 2463534242 | 0;
  const blocks = Array.from({ length: 500 }, (_, i) => noisyBlock(um, i));
  const octets = new Uint8Array(23);
  const least = (call) => {
    let best = Infinity;
    for (let round = 0; round < rounds; round++) {
      const start = performance.now();
      for (const block of blocks) call(block);
      best = Math.min(best, ((performance.now() - start) * 1000) / blocks.length);
    }
    return Number(best.toFixed(2));
  };
  return {
    sendBlock: least(() => um.sendBlock(octets, 3)),
    receiveBlock: least((block) => um.receiveBlock(block)),
    receiveBlockAmong: least((block) => um.receiveBlockAmong(block, 64)),
    marginBlock: least((block) => um.marginBlock(block)),
  };
};
