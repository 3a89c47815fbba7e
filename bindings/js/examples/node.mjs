// Sends a block over a noisy channel, and a message over a link that loses a frame.
//
//   cp dist/wasm/um.wasm bindings/js/ && node bindings/js/examples/node.mjs
import { load, softFromBits } from "um-gsm";

const um = await load();
const hex = (octets) => Buffer.from(octets).toString("hex");

const octets = um.writeFrame({ kind: "i", ns: 5, nr: 2, info: [6, 1] });
const soft = softFromBits(um.sendBlock(octets, 7));
for (const place of [3, 200, 410]) soft[place] = -soft[place];
soft.fill(0, 148, 296); // the second burst is lost
const { accepted, tsc, wrongCoded } = um.receiveBlock(soft);
console.log(`received ${accepted ? hex(accepted) : "nothing"}, training sequence ${tsc}, ${wrongCoded} coded bits wrong`);

const mobile = um.end("mobile");
const network = um.end("network");
const [ua] = network.take(mobile.open([1]).frames[0]).frames;
mobile.take(ua);
mobile.send([0x41, 0x42]); // its frame is lost
const [again] = mobile.timer().frames; // T200 expires: retransmit it
const { notices, frames } = network.take(again);
console.log("the network got", hex(notices[0].message), "and the mobile then has", mobile.take(frames[0]).notices[0].kind);
