// Tests what um.d.ts allows and forbids, without the library of a browser: compiled by tsc, never run.
import { End, Frame, load, NOTICES, Refused, REFUSALS, Side, softFromBits, Um, VERSION } from "um-gsm";

const use = async (): Promise<void> => {
  const um: Um = await load("um.wasm");
  const bursts: Uint8Array = um.sendBlock([1, 2, 3], 7);
  const { accepted, tsc, rank } = um.receiveBlockAmong([softFromBits(bursts), [0], new Int8Array(148), []], 64);
  const frame = um.readFrame(accepted ?? new Uint8Array(23), "sacch");
  if (frame.unread !== undefined) throw new Error(frame.unread);
  const read: Frame = frame;
  um.writeFrame({ kind: "i", info: [tsc, rank], pf: true }, "sdcch");
  um.writeFrame(read);
  const end: End = um.end("network", { sapi: 3 });
  for (const notice of end.take(um.writeFrame({ kind: "sabm", pf: 1 })).notices) {
    if (notice.kind === "acked") notice.number.toString();
    else if (notice.kind === "closed") notice.reason.toUpperCase();
    else if (notice.kind !== "oversize") notice.message.fill(0);
  }
  const { span } = um.repair(new Uint8Array(224)) ?? { span: 0 };
  const refusal = new Refused("full", `${span} ${end.variables.vs} ${um.version() === VERSION}`);
  const facts: boolean[] = [refusal.reason === "full", um.endFromBytes(end.toBytes()).timerRuns];
  facts.push(um.receiveSync(new Int8Array(148)).word.length > 0);
  facts.push((await load(new Uint8Array(8))) === um, REFUSALS.includes("notidle"), NOTICES.includes("closed"));
  const side: Side = um.side("mobile", { channel: "sacch" });
  side.send(3, [1]).frames.concat(side.take(bursts).frames, side.end(0).idle().frames);
  const block = um.slot("sdcch8", { words: 16, erasures: 4 }).take(3, new Int8Array(148));
  if (block?.accepted && block.channel === "sacch") facts.push(um.readFrame(block.accepted, block.channel).unread === "ea");
  if (block) facts.push(block.erasure.erased === 1, block.erasure.wrongTraining.length === um.detectTraining(bursts).wrongTraining.length);
  facts.push(um.placeFrame("bcch_ccch", "uplink", 0, 7)?.channel === "rach", um.readSch([])?.bsic === 1);
  const sender = um.trafficSender("half_rate_1", { direction: "uplink", tsc: 5 });
  facts.push(sender.facch(block?.accepted ?? []), sender.speech(bursts), sender.burst(3)?.length === 148, sender.channel === "full_rate");
  facts.push(um.trafficSenderFromBytes(sender.copy().toBytes()).burst(4) === null, um.trafficFromBytes([]).end().length === 0);
  facts.push(um.dataLink("mobile").idle, um.readB4(um.writeB4([], [5, 1]))?.length === 19);
  const assigned = um.dataLink("network", { establishment: "normal" });
  facts.push(assigned.fault(assigned.next().block) === "nr");
  assigned.establish(0);
  facts.push(assigned.establishment === "normal", assigned.unacked(0).every((message) => message.length > 0));
  // @ts-expect-error no such kind of establishment
  um.dataLink("mobile", { establishment: "handover" });
  // @ts-expect-error no such combination
  um.slot("sdcch");
  // @ts-expect-error a sender has no time slot
  um.trafficSender("full_rate", { timeslot: 1 });
  // @ts-expect-error no such SAPI
  side.timer(1);
  // @ts-expect-error a link of SAPI 0 opens with information
  end.open();
  // @ts-expect-error a number is no source
  await load(5);
  // @ts-expect-error no such kind
  um.writeFrame({ kind: "xid" });
  // @ts-expect-error no such channel
  um.readFrame(bursts, "tch");
  // @ts-expect-error ends are made by an Um
  new End();
};
use();
