// tdma.mjs - TDMA frames, synchronisation channel, random access and the channels of a time slot. Each call takes the machine first.
import { integer, place, putBits } from "./arguments.mjs";
import { COMBINATIONS, DIRECTIONS, LOGICAL_CHANNELS } from "./words.mjs";

export const FRAMES = 2715648;

export const frameOf = (frame) => integer("frame", frame, 0, FRAMES - 1);
// the numbers of a channel combination, a direction and a time slot
export const combined = (combination, direction, timeslot) => [
  place("combination", combination, COMBINATIONS),
  place("direction", direction, DIRECTIONS),
  integer("timeslot", timeslot, 0, 7),
];

export const timeOfFrame = (m, frame) => {
  m.told("um_time_of_frame", frameOf(frame), m.OUTPUT);
  return { t1: m.view.getUint16(m.output, true), t2: m.octets[m.output + 2], t3: m.octets[m.output + 3] };
};

export const frameOfTime = (m, t1, t2, t3) => {
  m.view.setUint16(m.input, integer("t1", t1, 0, 2047), true);
  m.octets.set([integer("t2", t2, 0, 25), integer("t3", t3, 0, 50)], m.input + 2);
  m.told("um_frame_of_time", m.INPUT, m.OUTPUT);
  return m.view.getUint32(m.output, true);
};

export const readSch = (m, info) => {
  putBits(m.octets, m.input, "info", info, 25);
  if (!m.call("um_read_sch", m.INPUT, m.OUTPUT)) return null;
  const [bsic, ncc, bcc] = m.octets.subarray(m.output + 4, m.output + 7);
  return { frame: m.view.getUint32(m.output, true), bsic, ncc, bcc };
};

export const writeSch = (m, bsic, frame) => {
  if (m.call("um_write_sch", integer("bsic", bsic, 0, 63), frameOf(frame), m.OUTPUT)) return m.copy(m.output, 25);
  throw new RangeError(`frame is ${frame}, with a T3 of ${frame % 51}; expected a T3 of 1, 11, 21, 31 or 41`);
};

export const writeRa = (m, ra) => {
  m.call("um_write_ra", integer("ra", ra, 0, 255), m.OUTPUT);
  return m.copy(m.output, 8);
};

export const readRa = (m, info) => {
  putBits(m.octets, m.input, "info", info, 8);
  m.told("um_read_ra", m.INPUT, m.OUTPUT);
  return m.octets[m.output];
};

export const writeBsic = (m, bsic) => {
  m.told("um_write_bsic", integer("bsic", bsic, 0, 63), m.OUTPUT);
  return m.copy(m.output, 6);
};

export const readBsic = (m, code) => {
  putBits(m.octets, m.input, "code", code, 6);
  m.told("um_read_bsic", m.INPUT, m.OUTPUT);
  return m.octets[m.output];
};

export const placeFrame = (m, combination, direction, timeslot, frame) => {
  if (m.call("um_place_frame", ...combined(combination, direction, timeslot), frameOf(frame), m.OUTPUT)) return null;
  const [channel, subchannel, burst] = m.octets.subarray(m.output + 4, m.output + 7);
  return { first: m.view.getUint32(m.output, true), channel: LOGICAL_CHANNELS[channel], subchannel, burst };
};

export const nextBlock = (m, combination, direction, timeslot, channel, subchannel, frame) => {
  const numbers = [...combined(combination, direction, timeslot), place("channel", channel, LOGICAL_CHANNELS)];
  if (m.call("um_next_block", ...numbers, integer("subchannel", subchannel, 0, 255), frameOf(frame), m.OUTPUT)) {
    return m.view.getUint32(m.output, true);
  }
  throw new RangeError(`channel is ${channel}, subchannel ${subchannel}; expected a channel of ${combination} in the ${direction}`);
};
