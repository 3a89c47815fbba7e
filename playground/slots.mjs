// A session of two data links. Lines are the calls of layer 3, what happens to the first block of one direction, and the slots: `slot` is
// the time of one block each way, and in `slot hold` nothing arrives. After `both channel` the sides have new data links, of normal
// establishment; after `mob channel` the mobile has, on a channel where nobody answers, and `mob return` brings it back. Layer 3 sends
// again, over each link that opens, what was not acknowledged. Independent of the page.
import { Refused } from "../bindings/js/um.mjs";
import { Session } from "./session.mjs";

const SAPIS = { mob: 0, net: 0, mob3: 3, net3: 3 };
const OWN = /^((mob|net) establish|(mob|both) channel|mob return)$/;

export class Slots extends Session {
  /** T200 and the delay are in slots: a block arrives so many slots after it was sent. */
  constructor(um, { t200, delay, ...options }) {
    super(um, options);
    Object.assign(this, { t200, delay, slots: 0, sides: {}, units: {} });
    for (const side of ["mob", "net"]) this.#make(side, "contention");
    this.#look();
  }

  // a new data link of a side
  #make(side, establishment) {
    const role = side === "mob" ? "mobile" : "network";
    const link = this.um.dataLink(role, { channel: this.channel, t200: this.t200, establishment });
    if (side === "mob" && this.channel === "sacch") link.main(true);
    Object.assign(this, { sides: { ...this.sides, [side]: link }, units: { ...this.units, [side]: [] } });
  }

  // the ends as they are now
  #look() {
    for (const [who, sapi] of Object.entries(SAPIS)) this.ends[who] = this.sides[who.slice(0, 3)].end(sapi);
  }

  /** Runs one line; answers the events that came of it. */
  run(line) {
    const [who, call] = line.split(" ");
    const events = /^slot( hold)?$/.test(line) ? this.#slot(line) : [super.run(line, OWN.test(line) ? { who, call } : undefined)];
    this.#look();
    return events;
  }

  invoke(event) {
    const { who, call, octets } = event;
    const [side, sapi] = [who.slice(0, 3), SAPIS[who]];
    const link = this.sides[side];
    if (call === "channel" || call === "return") return this.#move(who, call);
    if (call === "tick" || call === "idle") throw new Error(`a data link does "${call}" by itself; expected a call of layer 3, or slot`);
    if (call === "unit") this.units[side].push(link.unit(sapi, octets));
    else if (call === "establish") link.establish(sapi);
    else if (call === "close") link.close(sapi);
    else if (call === "send") {
      link.send(sapi, octets);
      this.claims[who].taken.push(octets);
    } else if (octets) link.open(octets);
    else link.openBare();
  }

  // to a new channel, or back; what is on the air to a side that leaves is not heard
  #move(who, call) {
    const back = call === "return";
    if (who === "mob" && !this.old === back) {
      throw new Refused("nochannel", back ? "the mobile is not away" : "the mobile is away; expected mob return, or both channel");
    }
    for (const way of who === "mob" ? ["down"] : ["up", "down"]) for (const block of this.air[way]) block.unheard = true;
    const { mob } = this.sides;
    if (back) {
      if (!/opening|closing/.test(this.old.state(0))) this.old.establish(0);
      this.sides.mob = this.old;
    } else for (const side of who === "mob" ? ["mob"] : ["mob", "net"]) this.#make(side, "normal");
    this.old = who === "mob" && !back ? mob : null;
  }

  arrive(event) {
    if (this.air[event.who][0]?.unheard) event.call = "lose";
    super.arrive(event);
  }

  put(event, who, octets) {
    super.put(event, who, octets);
    event.sent.at(-1).unheard = Boolean(this.old) && who !== "rival";
  }

  // when a link opens, layer 3 sends again what was not acknowledged
  note(event, who, notice) {
    const { taken, acked } = this.claims[who];
    super.note(event, who, notice);
    for (const message of notice.kind === "opened" ? taken.slice(Number(acked)) : []) {
      this.sides[who.slice(0, 3)].send(SAPIS[who], message);
      this.claims[who].taken.push(message);
      super.note(event, who, { kind: "again", message });
    }
  }

  take(event, side, who, octets) {
    for (const notice of this.sides[side].take(octets)) this.note(event, notice.sapi ? `${side}3` : side, notice);
  }

  #slot(line) {
    const event = (who, call) => ({ line, who, call, notices: [], sent: [], answers: [] });
    const events = [];
    this.lines.push(line);
    try {
      for (const way of ["up", "down"]) this.wantRoom(way);
    } catch (error) {
      if (!(error instanceof Refused)) throw error;
      this.answers.push(`no ${error.reason}`);
      return [{ ...event("", "slot"), refused: error.reason, why: error.message }];
    }
    this.slots++;
    for (const way of line === "slot" ? ["up", "down"] : []) {
      if (this.air[way].length === 0 || this.slots - this.air[way][0].slot < this.delay) continue;
      events.push(event(way, "deliver"));
      this.arrive(events.at(-1));
    }
    for (const side of ["mob", "net"]) events.push(this.#next(event(side, "slot"), side));
    this.answers.push(...events.flatMap(({ answers }) => answers), "ok");
    return events.filter(({ block, sent, notices }) => block || sent.length || notices.length);
  }

  // what goes into the slot of one side
  #next(event, side) {
    const { block, free, notices } = this.sides[side].next();
    for (const notice of notices) this.note(event, notice.sapi ? `${side}3` : side, notice);
    const octets = free ? this.units[side].shift() : block;
    if (octets) this.put(event, this.um.readFrame(octets, this.channel).sapi === 3 ? `${side}3` : side, octets);
    return event;
  }
}
