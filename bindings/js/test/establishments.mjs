// Scenes of an assignment, a handover and a return, by hand: what each side reports, and the octets of the frames that open a link, from
// 3GPP TS 44.006. The mobile's command and the network's response have C/R = 0.
import assert from "node:assert/strict";
import { ESTABLISHMENTS, FAULTS, Refused } from "../um.mjs";

const pair = (um, establishment = "normal", channel = "sdcch") =>
  ["mobile", "network"].map((role) => um.dataLink(role, { channel, t200: 4, t200Sapi3: 6, establishment }));
const text = (octets) => String.fromCharCode(...octets);
const octetsOf = (words) => Array.from(words, (letter) => letter.charCodeAt(0));

// a path between two data links: what each side reports in some slots, a kind or the message got; who is in `lost` is not heard
const pathOf = (links) => {
  let air = [null, null];
  return (slots, lost = []) => {
    const told = [[], []];
    for (let slot = 0; slot < slots; slot++) {
      const arrived = air;
      air = links.map((link, who) => {
        const notices = arrived[1 - who] ? link.take(arrived[1 - who]) : [];
        const sent = link.next();
        for (const { sapi, kind, message } of [...notices, ...sent.notices]) {
          assert.equal(sapi, 0);
          told[who].push(kind === "got" ? text(message) : kind);
        }
        return lost.includes(who) ? null : sent.block;
      });
    }
    return told;
  };
};
const sorted = (told) => told.map((side) => side.sort().join(" "));

const assigned = (um) => {
  const [mobile, network] = pair(um);
  assert.deepEqual([mobile.establishment, network.establishment, ...ESTABLISHMENTS], ["normal", "normal", "contention", "normal"]);
  mobile.establish(0);
  assert.equal(mobile.state(0), "opening");
  const up = mobile.next().block;
  assert.deepEqual([...up.subarray(0, 3)], [0x01, 0x3f, 0x01]);
  assert.deepEqual(network.take(up), [{ sapi: 0, kind: "opened", message: new Uint8Array() }]);
  const down = network.next().block;
  assert.deepEqual([...down.subarray(0, 3)], [0x01, 0x73, 0x01]);
  assert.deepEqual(mobile.take(down), [{ sapi: 0, kind: "opened", message: new Uint8Array() }]);
  mobile.send(0, octetsOf("complete"));
  network.send(0, octetsOf("alerting"));
  assert.deepEqual(sorted(pathOf([mobile, network])(6)), ["acked alerting", "acked complete"]);
};

// the network's command and the mobile's response have C/R = 1; on SACCH after the caller's layer 1 octets
const assignedByTheNetwork = (um) => {
  for (const [channel, at] of [["sdcch", 0], ["sacch", 2]]) {
    const [mobile, network] = pair(um, "normal", channel);
    network.establish(0);
    const down = network.next().block;
    assert.deepEqual([...down.subarray(at, at + 3)], [0x03, 0x3f, 0x01]);
    assert.equal(mobile.take(down)[0].kind, "opened");
    const up = mobile.next().block;
    assert.deepEqual([...up.subarray(at, at + 3)], [0x03, 0x73, 0x01]);
    assert.equal(network.take(up)[0].kind, "opened");
    network.send(0, octetsOf("N"));
    assert.deepEqual(pathOf([mobile, network])(6), [["N"], ["acked"]]);
  }
};

// each answers the other's SABM, and each reports one opening
const bothOpen = (um) => {
  const links = pair(um);
  for (const link of links) link.establish(0);
  const run = pathOf(links);
  assert.deepEqual(run(6), [["opened"], ["opened"]]);
  links[0].send(0, octetsOf("M"));
  links[1].send(0, octetsOf("N"));
  assert.deepEqual(sorted(run(6)), ["N acked", "M acked"]);
};

// the mobile comes back to a channel that it opened by contention, where the network's link is still open; the second time at once
const returned = (um) => {
  for (const sends of [true, false]) {
    const links = pair(um, "contention");
    const [mobile, network] = links;
    const run = pathOf(links);
    mobile.open(octetsOf("id"));
    assert.deepEqual(run(4), [["opened"], ["opened"]]);
    if (sends) {
      network.send(0, octetsOf("assignment"));
      assert.deepEqual(run(4), [["assignment"], ["acked"]]);
    }
    mobile.establish(0);
    assert.deepEqual(run(4), [["opened"], ["opened"]]);
    assert.deepEqual([mobile.establishment, network.establishment], ["normal", "normal"]);
    mobile.send(0, octetsOf("failure"));
    assert.deepEqual(run(4), [["acked"], ["failure"]]);
    assert.throws(() => mobile.open([1]), /a link of normal establishment is opened with establish\(0\)/);
  }
};

const openedAgain = (um) => {
  for (const who of [0, 1]) {
    const links = pair(um);
    const run = pathOf(links);
    links[0].establish(0);
    run(4);
    links[0].send(0, octetsOf("A"));
    links[1].send(0, octetsOf("B"));
    run(6);
    links[who].establish(0);
    assert.deepEqual(run(4), [["opened"], ["opened"]]);
    links[who].send(0, octetsOf("C"));
    const told = run(6);
    assert.deepEqual([told[who], told[1 - who]], [["acked"], ["C"]]);
  }
};

// a handover: what is not acknowledged is sent again over the new channel, and each message arrives once
const handedOver = (um) => {
  const links = pair(um);
  const old = pathOf(links);
  links[0].establish(0);
  old(4);
  links[0].send(0, octetsOf("A"));
  assert.deepEqual(links[0].unacked(0).map(text), ["A"]);
  assert.deepEqual(old(4), [["acked"], ["A"]]);
  assert.deepEqual([links[0].unacked(0), links[0].unacked(3)], [[], []]);
  const messages = ["B".repeat(251), "C"];
  for (const message of messages) links[0].send(0, octetsOf(message));
  assert.deepEqual(old(400, [0, 1]), [["closed"], []]);
  assert.deepEqual(links[0].unacked(0).map(text), messages);
  assert.deepEqual(um.dataLinkFromBytes(links[0].toBytes()).unacked(0).map(text), messages);
  const fresh = pair(um);
  const run = pathOf(fresh);
  fresh[0].establish(0);
  assert.deepEqual(run(4), [["opened"], ["opened"]]);
  for (const message of links[0].unacked(0)) fresh[0].send(0, message);
  assert.deepEqual(run(100), [["acked", "acked"], messages]);
  assert.deepEqual(fresh[0].unacked(0), []);
  links[0].closeLocal(0);
  assert.deepEqual(links[0].unacked(0), []);
};

// only the acknowledgement is lost: the first message that is sent again was received before
const oneComesTwice = (um) => {
  const links = pair(um);
  const run = pathOf(links);
  links[0].establish(0);
  run(4);
  for (const message of ["A", "B"]) links[0].send(0, octetsOf(message));
  assert.deepEqual(run(400, [1]), [["closed"], ["A"]]);
  const waiting = links[0].unacked(0);
  links[0].establish(0);
  assert.deepEqual([waiting.map(text), links[0].unacked(0)], [["A", "B"], []]);
  assert.deepEqual(run(4), [["opened"], ["opened"]]);
  for (const message of waiting) links[0].send(0, message);
  assert.deepEqual(run(20), [["acked", "acked"], ["A", "B"]]);
};

// an RR with N(R) = 1 that is lost and said again
const saysTwice = (um) => {
  const [mobile, network] = pair(um);
  mobile.establish(0);
  pathOf([mobile, network])(4);
  network.send(0, octetsOf("page"));
  mobile.take(network.next().block);
  const last = um.lastAnswer();
  const [first, second, third] = [0, 1, 2].map(() => last.next(mobile));
  assert.deepEqual([first.free, second.free, third.free], [false, false, true]);
  assert.deepEqual([...first.block.subarray(0, 3)], [0x03, 0x21, 0x01]);
  assert.deepEqual(second.block, first.block);
  assert.deepEqual([...third.block.subarray(0, 3)], [0x01, 0x03, 0x01]);
  assert.deepEqual(network.take(second.block).map(({ kind }) => kind), ["acked"]);
  const before = network.toBytes();
  assert.deepEqual([network.take(second.block), network.toBytes()], [[], before]);
};

// RR 0 and 1, a UA, and a DM with F = 1 and 0, before any I frame: what the open link did not ask for
const showsFaults = (um) => {
  const links = pair(um);
  links[0].establish(0);
  pathOf(links)(4);
  const shown = [0x01, 0x21, 0x73, 0x1f, 0x0f].map((control) => links[0].fault([0x01, control, 0x01, ...new Array(20).fill(0x2b)]));
  assert.deepEqual(shown, [null, ...FAULTS, null]);
  assert.equal(links[0].fault(new Uint8Array(23)), null);
};

const refuses = (um) => {
  const [mobile, network] = pair(um);
  const why = (call, reason, words) =>
    assert.throws(call, (error) => error instanceof Refused && error.reason === reason && words.test(error.message));
  assert.throws(() => um.dataLink("mobile", { establishment: "handover" }), /establishment is "handover"; expected .*contention.*normal/);
  assert.throws(() => um.dataLink("mobile", { establishment: 1 }), /establishment is 1; expected .*contention.*normal/);
  assert.throws(() => mobile.establish(1), /sapi is 1; expected/);
  assert.throws(() => mobile.unacked(), /sapi is undefined; expected/);
  why(() => network.open([1]), "nocall", /the network is opened with establish\(0\)/);
  mobile.establish(0);
  const before = mobile.toBytes();
  why(() => mobile.establish(0), "notidle", /the link is opening; establish expects one that is idle, open or closed/);
  assert.deepEqual([mobile.toBytes(), before.length, text(before.subarray(0, 4))], [before, 5224, "umL2"]);
  assert.equal(um.dataLinkFromBytes(before).establishment, "normal");
  assert.equal(mobile.copy().establishment, "normal");
};

export const tryEstablishments = (um) => {
  const opened = [assigned, assignedByTheNetwork, bothOpen, returned, openedAgain, handedOver];
  for (const scene of [...opened, oneComesTwice, saysTwice, showsFaults, refuses]) scene(um);
};
