// The commands of the program written over the JavaScript package, beside the program's answers.
//
//   node bindings/tests/program.mjs WASM CASES
//
// CASES is what cases.py writes. Arguments are given in forms drawn at random: typed arrays of several kinds, lists, four bursts.
import { readFileSync } from "node:fs";
import { load, Refused, softFromBits } from "../js/um.mjs";

const [wasm, cases] = process.argv.slice(2);
const um = await load(wasm);

let drawn = 2463534242 | 0;
const draw = (below) => {
  drawn ^= drawn << 13;
  drawn ^= drawn >>> 17;
  drawn ^= drawn << 5;
  return (drawn >>> 8) % below;
};
const one = (forms) => forms[draw(forms.length)];

const hex = (octets) => Array.from(octets, (octet) => octet.toString(16).padStart(2, "0")).join("") || "-";
const unhex = (digits) => (digits === "-" ? [] : digits.match(/../g).map((pair) => parseInt(pair, 16)));
const atOddPlace = (values) => {
  const longer = new Uint8Array(values.length + 3);
  longer.set(values, 3);
  return longer.subarray(3);
};
const octetsOf = (values) => one([(v) => v, (v) => Uint8Array.from(v), (v) => Int32Array.from(v), atOddPlace])(Array.from(values));
const bitsOf = (digits) => octetsOf(Array.from(digits, Number));
const rowsOf = (values, make) => [0, 1, 2, 3].map((i) => make(values.slice(148 * i, 148 * i + 148)));
const softOf = (values) => {
  const forms = [(v) => v, (v) => Int8Array.from(v), (v) => Int16Array.from(v), (v) => Object.freeze(v)];
  const rows = [(row) => row, (row) => Int8Array.from(row), (row) => Int32Array.from(row)].map((make) => (v) => rowsOf(v, make));
  return one(values.length === 592 ? [...forms, ...rows] : forms)(values.slice());
};
const octetAt = (bits, at) => bits.slice(at, at + 8).reduce((sum, bit, i) => sum | (bit << i), 0);
const packed = (bits) => hex(Array.from({ length: bits.length / 8 }, (_, i) => octetAt(bits, 8 * i)));
const word = (bits) => `data ${packed(bits.slice(0, 184))} check ${packed(bits.slice(184, 224))}`;

function* code(lines) {
  for (const line of lines) {
    const [kind, first, second] = line.split(" ");
    if (kind === "block") yield* rowsOf(um.sendBlock(octetsOf(unhex(second)), Number(first)), (row) => `n ${row.join("")}`);
    else if (kind === "rach") yield `a ${second} ${um.sendAccess(bitsOf(first), bitsOf(second)).join("")}`;
    else yield `s ${um.sendSync(bitsOf(first)).join("")}`;
  }
}

const softLine = (words) => {
  if (words[0] === "lost") return new Array(148).fill(0);
  const last = words[words.length - 1];
  if (/[nas]/.test(words[0])) return Array.from(last, (bit) => (bit === "1" ? -127 : 127));
  return unhex(last).map((octet) => (octet > 127 ? octet - 256 : octet));
};

const frameLine = (octets) => {
  const { unread, sapi, cr, kind, pf, ns, nr, more, info } = um.readFrame(octetsOf(octets));
  if (unread) return `unread ${unread}`;
  const head = `frame sapi ${sapi} cr ${cr} ${kind}`;
  if (kind === "i") return `${head} ns ${ns} nr ${nr} p ${pf} m ${more} info ${hex(info)}`;
  if (["rr", "rnr", "rej"].includes(kind)) return `${head} nr ${nr} pf ${pf}`;
  const line = `${head} ${["dm", "ua"].includes(kind) ? "f" : "p"} ${pf}`;
  return ["sabm", "ui", "ua"].includes(kind) ? `${line} info ${hex(info)}` : line;
};

const quality = ({ wrongTraining, metric }) => `train ${wrongTraining} metric ${metric}`;

function* blockLines(soft, margin) {
  const report = um.receiveBlock(softOf(soft));
  if (margin) {
    const best = um.marginBlock(softOf(soft));
    yield `block margin ${best.margin} metric ${report.metric} ${word(best.word)} next ${word(best.next).replace(/data |check /g, "")}`;
    return;
  }
  const { rank, ...among } = um.receiveBlockAmong(softOf(soft), 1 + draw(64));
  if (report.accepted && (rank !== 1 || JSON.stringify(among) !== JSON.stringify(report))) yield "list decoding reports another block";
  yield `block tsc ${report.tsc} ${quality(report)} parity ${report.accepted ? "ok" : "bad"} ${word(report.word)}`;
  if (report.accepted) yield frameLine(report.accepted);
}

const burstLine = (words) => {
  const access = /a/i.test(words[0]);
  const soft = softOf(softLine(words));
  const report = access ? um.receiveAccess(soft, bitsOf(words[1])) : um.receiveSync(soft);
  const [data, check] = access ? [8, 14] : [25, 35];
  const digits = report.word.join("");
  const parity = `parity ${report.accepted ? "ok" : "bad"} data ${digits.slice(0, data)} check ${digits.slice(data, check)}`;
  return `${access ? `access ${words[1]}` : "sync"} ${quality(report)} ${parity}`;
};

function* replay(lines, margin) {
  let group = [];
  for (const words of lines.map((line) => line.split(" "))) {
    if (!/^[nN]$|^lost$/.test(words[0])) {
      yield burstLine(words);
      continue;
    }
    group.push(...softLine(words));
    if (group.length === 592) {
      yield* blockLines(group, margin);
      group = [];
    }
  }
}

function* repair(lines) {
  for (const line of lines) {
    const [, data, check] = line.split(" ");
    const bits = unhex(data + check).flatMap((octet) => [0, 1, 2, 3, 4, 5, 6, 7].map((i) => (octet >> i) & 1));
    const done = um.repair(octetsOf(bits));
    if (!done || done.span === 0) yield done ? "holds" : "none";
    else yield `repaired first ${done.first} span ${done.span} ${word(done.word)}`;
  }
}

function* show(lines) {
  for (const words of lines.map((line) => line.split(" "))) {
    if (words[0] === "octets") {
      yield frameLine(unhex(words[1]));
      continue;
    }
    const fields = Object.fromEntries(words.slice(6).flatMap((name, i, all) => (i % 2 ? [] : [[name, all[i + 1]]])));
    const number = (...names) => Number(names.map((name) => fields[name]).find((value) => value !== undefined) ?? 0);
    const [sapi, cr] = [Number(words[2]), Number(words[4])];
    const frame = { kind: words[5], sapi, cr, pf: number("pf", "p", "f"), ns: number("ns"), nr: number("nr"), more: number("m") };
    yield `octets ${hex(um.writeFrame({ ...frame, info: octetsOf(unhex(fields.info ?? "-")) }))}`;
  }
}

// both sides, and the blocks in transit from each
class World {
  constructor(tsc, channel) {
    this.tsc = tsc;
    this.channel = channel;
    this.sides = { mob: um.side("mobile", { channel }), net: um.side("network", { channel }) };
    this.air = { mob: [], net: [] };
  }

  told(who, sapi, { notices, frames }) {
    this.air[who].push(...frames);
    const value = ({ message, number, reason }) => (message ? hex(message) : number ?? reason);
    const said = (notice) => [notice.kind, value(notice)].filter((part) => part !== undefined);
    return [
      ...notices.map((notice) => `${who}${sapi ? "3" : ""} ${said(notice).join(" ")}`),
      ...frames.map((frame) => `${who} sends ${hex(frame)}`),
    ];
  }

  call(name, what, digits) {
    const [who, sapi] = [name.slice(0, 3), name.endsWith("3") ? 3 : 0];
    if (draw(20) === 0) this.sides[who] = um.sideFromBytes(octetsOf(this.sides[who].toBytes()));
    const side = this.sides[who];
    const octets = () => octetsOf(unhex(digits));
    const calls = {
      open: () => (sapi ? side.openBare() : side.open(octets())),
      send: () => side.send(sapi, octets()),
      unit: () => side.unit(sapi, octets()),
      close: () => side.close(sapi),
      tick: () => side.timer(sapi),
      idle: () => side.idle(),
    };
    const runs = side.timerRuns(sapi);
    try {
      const effects = calls[what]();
      return what === "tick" && !runs ? ["timerRuns says no"] : [...this.told(who, sapi, effects), "ok"];
    } catch (error) {
      if (!(error instanceof Refused)) throw error;
      return what === "tick" && runs ? ["timerRuns says yes"] : [`no ${error.reason}`];
    }
  }

  arrives(sender, who, turned) {
    const bits = um.sendBlock(this.air[sender].shift(), this.tsc);
    for (const at of turned) bits[at] ^= 1;
    const report = um.receiveBlock(softFromBits(bits));
    const seen = `tsc ${report.tsc} ${quality(report)}`;
    if (!report.accepted) return [`${who} drops ${seen} ${word(report.word)}`, "ok"];
    const lines = [`${who} takes ${hex(report.accepted)} ${seen}`];
    try {
      const { sapi, ...effects } = this.sides[who].take(octetsOf(report.accepted));
      lines.push(...this.told(who, sapi, effects));
    } catch (error) {
      if (!(error instanceof Refused) || error.reason !== "noframe") throw error;
    }
    return [...lines, "ok"];
  }

  rival(digits) {
    const octets = unhex(digits);
    if (octets.length === 0 || octets.length > (this.channel === "sacch" ? 18 : 20)) return [octets.length ? "no toolong" : "no empty"];
    this.air.mob.push(um.writeFrame({ kind: "sabm", pf: true, info: octets }, this.channel));
    return [`rival sends ${hex(this.air.mob[this.air.mob.length - 1])}`, "ok"];
  }

  line(words) {
    const isAir = ["up", "down"].includes(words[0]);
    const [sender, receiver] = ["up", "rival"].includes(words[0]) ? ["mob", "net"] : ["net", "mob"];
    if (isAir && this.air[sender].length === 0) return ["no nothing"];
    if (isAir && words[1] === "lose") {
      this.air[sender].shift();
      return ["ok"];
    }
    const writer = isAir ? receiver : words[0] === "rival" ? sender : words[0].slice(0, 3);
    if (this.air[writer].length > 62) return ["no airfull"];
    if (isAir) return this.arrives(sender, receiver, words.slice(2).map(Number));
    return words[0] === "rival" ? this.rival(words[1]) : this.call(...words);
  }
}

const link = ([, tsc, channel = "sdcch"], lines) => {
  const world = new World(Number(tsc), channel);
  return lines.flatMap((line) => world.line(line.split(" ")));
};

const COMMANDS = { code, replay, repair, show, margin: (lines) => replay(lines, true) };

let count = 0;
for (const { words, lines, answers } of readFileSync(cases, "ascii").trim().split("\n").map((line) => JSON.parse(line))) {
  const given = words[0] === "link" ? link(words, lines) : [...COMMANDS[words[0]](lines)];
  count += given.length;
  const at = answers.findIndex((answer, i) => answer !== given[i]);
  if (at >= 0 || given.length !== answers.length) {
    console.log(`js: program.mjs: ${words.join(" ")}: answer ${at + 1} is\n  ${given[at]}\nand the program's is\n  ${answers[at]}`);
    process.exit(1);
  }
}
console.log(`js: the package gives the program's ${count} answers to random lines`);
