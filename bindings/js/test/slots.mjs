// TDMA frames, the channels of a time slot and its receiver, beside worked values of 3GPP TS 45.002 and TS 44.018.
import assert from "node:assert/strict";
import { Refused, softFromBits } from "../um.mjs";

const FILL = [3, 3, 1, ...new Array(20).fill(0x2b)];

// system information 6 of a real cell, whose L2 pseudo length is 11, in a block of SACCH
const formatB4 = (um) => {
  const si6 = [0x2d, 0x06, 0x1e, 0x2b, 0xd9, 0x62, 0xf2, 0x20, 0x01, 0x3e, 0x95, 0x78, 0x7b, ...new Array(6).fill(0x2b)];
  assert.deepEqual([...um.writeB4(si6, [5, 3])], [5, 3, 3, 3, ...si6]);
  assert.deepEqual([...um.readB4(um.writeB4(si6))], si6);
  assert.equal(um.readB4([5, 3, 3, 1, ...si6]), null);
  assert.throws(() => um.writeB4(si6.slice(1)), /info has 18 values; expected 19 octets/);
};

const tdma = (um) => {
  for (const frame of [0, 1326, 2715647]) {
    const [t1, t2, t3] = [Math.floor(frame / 1326), frame % 26, frame % 51];
    assert.deepEqual(um.timeOfFrame(frame), { t1, t2, t3 });
    assert.equal(um.frameOfTime(t1, t2, t3), frame);
  }
  const frame = 1326 * 1234 + 21;
  assert.deepEqual(um.readSch(um.writeSch(37, frame)), { frame, bsic: 37, ncc: 4, bcc: 5 });
  assert.throws(() => um.writeSch(37, 12), /frame is 12, with a T3 of 12; expected a T3 of 1, 11, 21, 31 or 41/);
  assert.deepEqual([...um.writeRa(0x83)], [1, 1, 0, 0, 0, 0, 0, 1]);
  assert.deepEqual([...um.writeBsic(32)], [1, 0, 0, 0, 0, 0]);
  assert.deepEqual([um.readRa(um.writeRa(0xe3)), um.readBsic(um.writeBsic(37))], [0xe3, 37]);
  // TS 45.002, clause 7
  for (const [combination, at, place] of [
    ["sdcch8", 7, { first: 4, channel: "sdcch", subchannel: 1, burst: 3 }],
    ["sdcch8", 84, { first: 83, channel: "sacch", subchannel: 4, burst: 1 }],
    ["bcch_ccch", 1, { first: 1, channel: "sch", subchannel: 0, burst: 0 }],
    ["sdcch8", 48, null],
  ]) {
    assert.deepEqual(um.placeFrame(combination, "downlink", 0, at), place);
  }
  assert.equal(um.nextBlock("sdcch8", "downlink", 0, "sdcch", 0, 52), 102);
  assert.throws(() => um.nextBlock("sdcch8", "downlink", 0, "rach", 0, 0), /channel is rach, subchannel 0; expected a channel of sdcch8/);
};

const slots = (um) => {
  const bits = um.sendBlock(FILL, 5);
  const soft = softFromBits(bits);
  const burst = (of, i) => of.subarray(148 * i, 148 * i + 148);
  const slot = um.slot("sdcch8", { words: 64, erasures: 4 });
  assert.deepEqual([slot.combination, slot.direction, slot.timeslot], ["sdcch8", "downlink", 0]);
  for (const i of [0, 1]) assert.equal(slot.take(i, burst(soft, i)), null);
  const again = um.slotFromBytes(slot.toBytes());
  for (const each of [slot, again]) {
    const block = each.take(3, burst(soft, 3));
    assert.deepEqual([...block.accepted], FILL);
    const { first, channel, subchannel, heard, rank, tsc, erasure } = block;
    const none = { erased: null, wrongTraining: [0, 0, 26, 0] };
    const wanted = { first: 0, channel: "sdcch", subchannel: 0, heard: 3, rank: 1, tsc: 5, erasure: none };
    assert.deepEqual({ first, channel, subchannel, heard, rank, tsc, erasure }, wanted);
  }
  for (const [reason, frame] of [["doubled", 3], ["late", 2]]) {
    assert.throws(() => slot.take(frame, burst(soft, 0)), (error) => error instanceof Refused && error.reason === reason);
  }
  assert.equal(slot.take(4, burst(soft, 0)), null);
  const { first, subchannel, heard } = slot.take(8);
  assert.deepEqual([first, subchannel, heard], [4, 1, 1]);
  const hard = um.slot("sdcch8");
  for (const i of [0, 1, 2]) hard.take(i, burst(bits, i));
  const before = hard.toBytes();
  assert.deepEqual([before.length, ...before.subarray(0, 4)], [611, 0x75, 0x6d, 0x54, 0x32]);
  assert.throws(() => hard.take(3, burst(bits, 3)), /burst has hard bits/);
  assert.deepEqual(hard.toBytes(), before);
  assert.throws(() => um.slotFromBytes(new Uint8Array(611).fill(255).fill(0x75, 0, 1)), /octets begins with/);
  assert.throws(() => um.slotFromBytes(before.fill(255, 4)), (error) => error.reason === "noslot");
  assert.throws(() => um.slot("sdcch8", { erasures: 5 }), /erasures is 5; expected an integer from 0 to 4/);
};

// Of a block one burst came, all 0 but a single 1. The next block ends it, and each burst of it is taken.
const nearlyLost = (um) => {
  const soft = softFromBits(um.sendBlock(FILL, 5));
  const slot = um.slot("sdcch8", { timeslot: 3 });
  const blocks = [518, 522, 523, 524, 525].map((frame) =>
    slot.take(frame, frame === 518 ? new Int8Array(148).fill(1, 70, 71) : soft.subarray(148 * (frame - 522), 148 * (frame - 521))),
  );
  const wanted = [null, { first: 518, heard: 1, accepted: null }, null, null, { first: 522, heard: 4, accepted: Uint8Array.from(FILL) }];
  assert.deepEqual(blocks.map((block) => block && { first: block.first, heard: block.heard, accepted: block.accepted }), wanted);
};

const erasing = (um) => {
  const soft = softFromBits(um.sendBlock(FILL, 2)).map((value) => Math.sign(value) * 40);
  for (let i = 148; i < 296; i++) soft[i] = ((i * 97) % 255) - 127;
  const { tsc, wrongTraining } = um.detectTraining(soft);
  const report = um.receiveBlockErasing(soft, 1, 4);
  assert.deepEqual([tsc, report.tsc, report.erasure.wrongTraining], [2, 2, wrongTraining]);
  assert.deepEqual([[...report.accepted], report.erasure.erased], [FILL, um.receiveBlock(soft).accepted ? null : 1]);
};

const restartAndEnd = (um) => {
  const soft = softFromBits(um.sendBlock(FILL, 5));
  const burst = (i) => soft.subarray(148 * i, 148 * i + 148);
  const slot = um.slot("sdcch8", { words: 16, erasures: 4, limit: 20 });
  const before = slot.toBytes();
  assert.deepEqual([slot.limit, um.slot("sdcch8").limit, slot.end()], [20, 78, null]);
  slot.take(51000, burst(0));
  assert.throws(() => slot.take(0, burst(0)), (error) => error.reason === "late");
  slot.restart();
  assert.deepEqual(slot.toBytes(), before);
  for (const frame of [0, 1, 2]) assert.equal(slot.take(frame, burst(frame)), null);
  assert.equal(um.slotFromBytes(slot.toBytes()).limit, 20);
  const { first, heard, accepted } = slot.end();
  assert.deepEqual([first, heard, [...accepted]], [0, 3, FILL]);
  assert.throws(() => um.slot("sdcch8", { limit: 79 }), /limit is 79; expected an integer from 0 to 78/);
  assert.throws(() => um.slotFromBytes(before.fill(0x31, 3, 4)), /octets begins with "umT1"; expected "umT2"/);
};

// FACCH written into eight and six bursts is received, also from their halves; ciphered bursts; what a receiver refuses
const traffic = (um) => {
  const sent = um.sendBlock(FILL, 5);
  for (const [channel, count] of [["full_rate", 8], ["half_rate_1", 6]]) {
    const first = um.nextFacch(channel, "downlink", 1000);
    const soft = softFromBits(um.stealFacch(sent, new Uint8Array(148 * count)));
    assert.deepEqual(um.joinFacch(soft), softFromBits(sent));
    // the third of the bursts is inverted and stronger: erased as it was sent, the block is received
    const inverted = soft.map((bit, i) => (Math.floor(i / 148) === 2 ? -bit : Math.trunc(bit / 2)));
    const saved = um.receiveFacchErasing(inverted, 1, 1);
    assert.deepEqual([saved.accepted, saved.rank], [Uint8Array.from(FILL), 1]);
    assert.deepEqual(saved.erasure, { erased: 2, wrongTraining: Array.from({ length: count }, (_, i) => (i === 2 ? 26 : 0)) });
    assert.equal(um.receiveFacchErasing(inverted, 1, 0).accepted, null);
    assert.throws(() => um.receiveFacchErasing(soft, 1, count + 1), new RegExp(`erasures is ${count + 1}; expected .* 0 to ${count}`));
    const receiver = um.traffic(channel, { timeslot: 2, words: 4, limit: 20 });
    const blocks = [];
    for (let frame = first, i = 0; i < count; frame++) {
      if (um.placeTraffic(channel, "downlink", frame)) blocks.push(...receiver.take(frame, soft.subarray(148 * i, 148 * ++i)));
    }
    const { kind, accepted, flags, bursts, heard, channel: carried, first: begun } = blocks.at(-1);
    assert.deepEqual([kind, [...accepted], flags, heard, carried, begun], ["facch", FILL, -1016, count, "facch", first]);
    assert.deepEqual([um.stealingFlags(bursts), receiver.bursts.length], [{ sum: -1016, wrong: 0 }, count]);
    assert.throws(() => receiver.take(first, soft.subarray(0, 148)), (error) => error.reason === "late");
    assert.deepEqual(um.trafficFromBytes(receiver.toBytes()).toBytes(), receiver.toBytes());
    receiver.restart();
    assert.deepEqual(receiver.end(), []);
    // sent by frame numbers the bursts are the same
    const sender = um.trafficSender(channel, { tsc: 5 });
    assert.deepEqual([sender.speech(new Uint8Array(592)), sender.facch(FILL), sender.facch(FILL)], [true, true, false]);
    const again = um.trafficSenderFromBytes(sender.toBytes());
    const made = [];
    for (let frame = first; made.length < 148 * count; frame++) made.push(...(again.burst(frame) ?? []));
    assert.deepEqual(Uint8Array.from(made), um.stealFacch(sent, new Uint8Array(148 * count)));
    assert.throws(() => again.burst(first), (error) => error.reason === "late");
    assert.deepEqual([sender.burst(first) !== null, sender.copy().burst(first + 26), sender.channel], [true, null, channel]);
  }
  assert.throws(() => um.trafficSenderFromBytes(new Uint8Array(1790)), /expected "umO1"/);
  const stream = Uint8Array.from({ length: 114 }, (_, i) => (i * i) % 3 & 1);
  const burst = sent.subarray(0, 148);
  const ciphered = um.cipherBits(burst, stream);
  const places = [...Array(57).keys()].map((i) => i + 3).concat([...Array(57).keys()].map((i) => i + 88));
  assert.deepEqual([...places.map((place, i) => burst[place] ^ stream[i])], places.map((place) => ciphered[place]));
  assert.deepEqual(um.softCipher(softFromBits(ciphered), stream), softFromBits(burst));
  assert.equal(um.placeTraffic("full_rate", "uplink", 12), null);
  assert.throws(() => um.slot("tch_h", { timeslot: 5 }), /combination is "tch_h"; .* expected "tch_f" with time slot 4 or 5, or a Traffic/);
  assert.throws(() => um.joinFacch(new Int8Array(148 * 7)), /bursts has 7 bursts of 148; expected 8 at full rate, or 6 at half rate/);
  assert.throws(() => um.traffic("tch_f"), /channel is "tch_f"; expected "full_rate"/);
};

export const trySlots = (um) => {
  formatB4(um);
  tdma(um);
  slots(um);
  nearlyLost(um);
  restartAndEnd(um);
  traffic(um);
  erasing(um);
};
