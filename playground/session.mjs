// A session of two ends over a radio path, line by line as `um link` runs it: the same lines, the same answers. Independent of the page.
import { Refused, softFromBits } from "../bindings/js/um.mjs";
import { hex, octetsOfBits, octetsOf, same } from "./dom.mjs";
import { frameLabel } from "./lines.mjs";

const ROOM = 64; // the most blocks in transit one way; an event adds at most two
const FORMS = [/^mob open HEX$/, /^(mob|net)3 open$/, /^(mob|net)3? (send HEX|unit HEX|close|tick)$/, /^(mob|net) idle$/,
  /^(up|down) (deliver|lose|flip( P)+)$/, /^rival HEX$/];
const HOW = "expected a line of um link, such as mob open 01, net send 4142, mob3 tick, up deliver, down flip 3 77, or rival 02";

const otherEnd = (who) => who.replace(/^.../, (side) => (side === "mob" ? "net" : "mob"));
const wayFrom = (who) => (who.startsWith("net") ? "down" : "up");

const placesOf = (words) => {
  const bad = words.find((word) => !/^(0|[1-9]\d*)$/.test(word));
  if (bad !== undefined) throw new Error(`"${bad}" is not a bit number; expected whole numbers from 0 to 591`);
  const above = words.find((word) => Number(word) > 591);
  if (above !== undefined) throw new Error(`bit ${above} is above 591, the last bit of a block`);
  const twice = words.find((word, i) => words.indexOf(word) < i);
  if (twice !== undefined) throw new Error(`bit ${twice} is given twice`);
  return words.map(Number);
};

/** What a line means: { who, call, octets, places }. An Error says why it is no line of um link. */
export const readLine = (line) => {
  const words = line.split(" ");
  const flips = words[1] === "flip";
  const last = words[0] === "rival" ? 1 : 2;
  const form = words.map((word, i) => (i < last ? word : flips ? "P" : "HEX")).join(" ");
  if (!FORMS.some((one) => one.test(form))) throw new Error(HOW);
  const [who, call] = words[0] === "rival" ? ["rival", "open"] : words;
  if (flips) return { who, call, places: placesOf(words.slice(2)) };
  if (words.length === last) return { who, call };
  const digits = words[last];
  if (digits === "") throw new Error("no octets; expected hexadecimal digits, or - for none");
  return { who, call, octets: digits === "-" ? new Uint8Array() : octetsOf(digits) };
};

const noticeLine = (who, { kind, message, number, reason }) => {
  const what = message ? hex(message) || "-" : (number ?? reason ?? "");
  return `${who} ${kind} ${what}`.trim();
};

export class Session {
  constructor(um, { tsc = 0, channel = "sdcch" } = {}) {
    const end = (role, sapi) => um.end(role, { sapi, channel });
    Object.assign(this, { um, tsc, channel });
    this.ends = { mob: end("mobile", 0), net: end("network", 0), mob3: end("mobile", 3), net3: end("network", 3) };
    this.air = { up: [], down: [] };
    this.lines = [];
    this.answers = [];
    this.claims = Object.fromEntries(Object.keys(this.ends).map((who) => [who, { taken: [], handed: [], acked: 0n }]));
    this.altered = 0;
    this.blocks = 0;
  }

  /** Runs one line; answers what came of it. */
  run(line, asked = readLine(line)) {
    const event = { line, ...asked, notices: [], sent: [], answers: [] };
    try {
      if (asked.who === "up" || asked.who === "down") this.arrive(event);
      else if (asked.who === "rival") this.#rival(event);
      else this.invoke(event);
      event.answers.push("ok");
    } catch (error) {
      if (!(error instanceof Refused)) throw error;
      Object.assign(event, { refused: error.reason, why: error.message, answers: [`no ${error.reason}`] });
    }
    this.lines.push(line);
    this.answers.push(...event.answers);
    return event;
  }

  wantRoom(way) {
    if (this.air[way].length > ROOM - 2) throw new Refused("airfull", `${this.air[way].length} blocks are on the air there already`);
  }

  // a call at an end
  invoke(event) {
    const { who, call, octets } = event;
    this.wantRoom(wayFrom(who));
    const end = this.ends[who];
    const asked = call === "tick" ? "timer" : call === "open" && !octets ? "openBare" : call;
    this.#effects(event, who, end[asked](octets));
    if (call === "send") this.claims[who].taken.push(octets);
  }

  #rival(event) {
    const most = this.channel === "sacch" ? 18 : 20;
    const { octets } = event;
    this.wantRoom("up");
    if (octets.length === 0) throw new Refused("empty", "a SABM that opens the link of SAPI 0 carries information");
    if (octets.length > most) throw new Refused("toolong", `${octets.length} octets; a SABM here carries at most ${most}`);
    this.#effects(event, "rival", { notices: [], frames: [this.um.writeFrame({ kind: "sabm", pf: 1, info: octets }, this.channel)] });
  }

  // the first block of one direction is lost, or arrives with some of its bits inverted
  arrive(event) {
    const { who: way, call, places = [] } = event;
    const queue = this.air[way];
    if (queue.length === 0) throw new Refused("nothing", "no block is on the air there");
    if (call !== "lose") this.wantRoom("down" === way ? "up" : "down");
    event.block = queue.shift();
    event.lost = call === "lose";
    if (event.lost) return;
    const soft = softFromBits(this.um.sendBlock(event.block.octets, this.tsc));
    for (const place of places) soft[place] = -soft[place];
    this.#received(event, way === "up" ? "net" : "mob", this.um.receiveBlock(soft));
  }

  #received(event, side, report) {
    const { accepted, tsc, wrongTraining, metric, word } = report;
    const heard = `tsc ${tsc} train ${wrongTraining} metric ${metric}`;
    Object.assign(event, { to: side, report });
    if (!accepted) {
      const [data, check] = [word.subarray(0, 184), word.subarray(184, 224)].map((bits) => hex(octetsOfBits(bits)));
      event.answers.push(`${side} drops ${heard} data ${data} check ${check}`);
      return;
    }
    event.answers.push(`${side} takes ${hex(accepted)} ${heard}`);
    if (!same(accepted, event.block.octets)) this.altered++;
    const { unread, sapi } = this.um.readFrame(accepted, this.channel);
    if (!unread && (sapi === 0 || sapi === 3)) this.take(event, side, sapi === 3 ? `${side}3` : side, accepted);
  }

  // a frame for an end of a side
  take(event, side, who, octets) {
    this.#effects(event, who, this.ends[who].take(octets));
  }

  #effects(event, who, { notices, frames }) {
    for (const notice of notices) this.note(event, who, notice);
    for (const octets of frames) this.put(event, who, octets);
  }

  // an end reports something; when it opens, its messages begin
  note(event, who, notice) {
    event.notices.push({ who, notice });
    event.answers.push(noticeLine(who, notice));
    if (notice.kind === "got") this.claims[otherEnd(who)].handed.push(notice.message);
    if (notice.kind === "acked") this.claims[who].acked = notice.number;
    if (notice.kind === "opened") {
      Object.assign(this.claims[who], { taken: [], acked: 0n });
      this.claims[otherEnd(who)].handed = [];
    }
  }

  // a block goes on the air
  put(event, who, octets) {
    const from = who === "rival" ? who : who.slice(0, 3);
    const frame = this.um.readFrame(octets, this.channel);
    const block = { id: ++this.blocks, from, who, octets, frame, label: frameLabel(frame), slot: this.slots };
    event.sent.push(block);
    event.answers.push(`${from} sends ${hex(octets)}`);
    this.air[wayFrom(who)].push(block);
  }

  /** How many messages an end accepted, and of them were delivered and acknowledged; whether delivered is a prefix, each once. */
  claim(who) {
    const { taken, handed, acked } = this.claims[who];
    const front = handed.length <= taken.length && handed.every((message, i) => same(message, taken[i]));
    return { taken: taken.length, handed: handed.length, acked: Number(acked), front, acknowledged: acked <= BigInt(handed.length) };
  }
}
