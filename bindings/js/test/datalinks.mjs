// The data link: a session over a path that loses blocks, and its values.
import assert from "node:assert/strict";
import { Refused } from "../um.mjs";

let drawn = 2463534242 | 0;
const draw = (below) => {
  drawn ^= drawn << 13;
  drawn ^= drawn >>> 17;
  drawn ^= drawn << 5;
  return (drawn >>> 8) % below;
};

// a mobile and a network with three messages each way on both links; one block in ten is lost
const session = (um, channel) => {
  const sides = ["mobile", "network"].map((role) => um.dataLink(role, { channel }));
  const got = sides.map(() => ({ 0: [], 3: [] }));
  sides[0].main(true);
  sides[0].open([1, 2]);
  let air = [null, null];
  for (let slot = 0; slot < 4000; slot++) {
    const arrived = air;
    air = sides.map((link, who) => {
      const told = arrived[1 - who] ? link.take(arrived[1 - who]) : [];
      const { block, notices } = link.next([5, 0]);
      for (const { sapi, kind, message } of [...told, ...notices]) {
        if (kind === "got") got[who][sapi].push(message[1]);
        if (kind !== "opened") continue;
        for (const number of [0, 1, 2]) link.send(sapi, new Array(40).fill(number));
        if (who === 0 && sapi === 0) link.openBare();
      }
      return draw(10) ? block : null;
    });
    if (got.every((messages) => messages[0].length === 3 && messages[3].length === 3)) return got;
  }
  return got;
};

// After `closed` the answer to the other side's release waits for its slot; a SABM and its answer, and a release, do too.
const idle = (um) => {
  const [mobile, network] = [um.dataLink("mobile"), um.dataLink("network")];
  const both = () => [mobile.idle, network.idle];
  assert.deepEqual(both(), [true, true]);
  mobile.open([1]);
  network.take(mobile.next().block);
  assert.deepEqual(both(), [false, false]);
  mobile.take(network.next().block);
  assert.deepEqual(both(), [true, true]);
  mobile.close(0);
  const [closed] = network.take(mobile.next().block);
  assert.deepEqual([closed.kind, ...both()], ["closed", false, false]);
  mobile.take(network.next().block);
  assert.deepEqual(both(), [true, true]);
};

// some slots, in which the network's blocks may be lost; what each side reports
const told = (links, air, count, lost = false) => {
  const said = [[], []];
  const tell = (who, notices) => {
    for (const { kind, message } of notices) said[who].push(kind === "got" ? kind + String.fromCharCode(...message) : kind);
  };
  for (let slot = 0; slot < count; slot++) {
    const arrived = [...air];
    links.forEach((link, who) => arrived[1 - who] && tell(who, link.take(arrived[1 - who])));
    links.forEach((link, who) => {
      const { block, notices } = link.next();
      tell(who, notices);
      air[who] = lost && who === 1 ? null : block;
    });
  }
  return said.map((kinds) => kinds.sort().join(" "));
};

// a link that is open at the other side is opened again: a new opening at both sides
const tryOpenedAgain = (um) => {
  const air = [null, null];
  const links = ["mobile", "network"].map((role) => um.dataLink(role, { channel: "sacch", t200: 4, t200Sapi3: 6 }));
  links[0].main(true);
  links[0].openBare();
  assert.deepEqual(told(links, air, 4), ["opened", "opened"]);
  links[0].send(3, [65]);
  assert.deepEqual(told(links, air, 40, true), ["closed", "gotA"]);
  links[0].openBare();
  assert.deepEqual(told(links, air, 3), ["opened", "opened"]);
  links[0].send(3, [66]);
  links[1].send(3, [67]);
  assert.deepEqual(told(links, air, 10), ["acked gotC", "acked gotB"]);

  const pair = ["mobile", "network"].map((role) => um.dataLink(role, { t200: 2 }));
  const between = [null, null];
  pair[0].open([1, 2]);
  assert.deepEqual(told(pair, between, 4), ["opened", "opened"]);
  pair[0].send(0, [65]);
  assert.deepEqual(told(pair, between, 4), ["acked", "gotA"]);
  pair[0].closeLocal(0);
  pair[0].open([1, 2]);
  assert.deepEqual(told(pair, between, 4), ["opened", "opened"]);
  pair[0].send(0, [66]);
  pair[1].send(0, [67]);
  assert.deepEqual(told(pair, between, 6), ["acked gotC", "acked gotB"]);
};

// the network releases SAPI 3 in the slot in which the mobile opens it again: a DM in the next slot refuses each
const tryCollision = (um) => {
  const air = [null, null];
  const links = ["mobile", "network"].map((role) => um.dataLink(role, { channel: "sacch", t200: 4, t200Sapi3: 6 }));
  links[0].main(true);
  links[0].openBare();
  assert.deepEqual(told(links, air, 4), ["opened", "opened"]);
  links[0].openBare();
  links[1].close(3);
  assert.deepEqual(told(links, air, 2), ["", ""]);
  assert.deepEqual(air.map((block) => [...block.slice(2, 5)]), [[15, 31, 1], [13, 31, 1]]);
  assert.deepEqual(told(links, air, 1), ["closed", "closed"]);
};

export const tryDataLinks = (um) => {
  idle(um);
  tryOpenedAgain(um);
  tryCollision(um);
  for (const channel of ["sdcch", "sacch"]) {
    const all = { 0: [0, 1, 2], 3: [0, 1, 2] };
    assert.deepEqual(session(um, channel), [all, all]);
  }
  const link = um.dataLink("mobile", { channel: "sacch" });
  assert.deepEqual([link.role, link.channel, link.state(0), link.end(3).sapi], ["mobile", "sacch", "idle", 3]);
  const { block, free, notices } = link.next([7, 1]);
  assert.deepEqual([...block.subarray(0, 2), free, notices.length], [7, 1, true, 0]);
  assert.deepEqual([...um.readFrame(link.unit(0, [104, 105]), "sacch").info], [104, 105]);
  link.open([1]);
  const octets = link.toBytes();
  assert.deepEqual([octets.length, ...octets.subarray(0, 4)], [5224, 0x75, 0x6d, 0x4c, 0x32]);
  assert.deepEqual(um.dataLinkFromBytes(octets).toBytes(), octets);
  const other = link.copy();
  other.closeLocal(0);
  assert.deepEqual([link.state(0), other.state(0)], ["opening", "idle"]);
  const refused = (reason) => (error) => error instanceof Refused && error.reason === reason;
  assert.throws(() => link.send(3, [1]), refused("notopen"));
  assert.throws(() => um.dataLink("network").open([1]), refused("nocall"));
  const older = octets.slice(0, 5222);
  older[3] = 0x31;
  assert.throws(() => um.dataLinkFromBytes(older), /octets begins with "umL1"; expected "umL2"/);
  assert.throws(() => um.dataLinkFromBytes(octets.fill(255, 4)), refused("noend"));
  assert.throws(() => um.dataLink("mobile", { t200: 0 }), /t200 is 0; expected an integer from 1 to 255/);
};
