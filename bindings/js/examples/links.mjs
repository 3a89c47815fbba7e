// 64 links over a channel that loses one block in ten: each mobile opens its link, sends a message, and closes when it is acknowledged.
//
//   cp dist/wasm/um.wasm bindings/js/ && node bindings/js/examples/links.mjs
import { load } from "um-gsm";

const LINKS = 64;
const SLOTS = 1000;
const um = await load();
const sides = Array.from({ length: 2 * LINKS }, (_, at) => um.dataLink(at % 2 ? "network" : "mobile"));
const arriving = sides.map(() => null);
let [got, closed, slot, state] = [0, 0, 0, 2463534242];

// a random 32-bit number by xorshift (Marsaglia, 2003)
const random = () => {
  state ^= state << 13;
  state ^= state >>> 17;
  state ^= state << 5;
  return state >>> 0;
};

const handle = (side, notices) => {
  for (const { sapi, kind, message, reason } of notices) {
    if (kind === "opened" && side.role === "mobile") side.send(sapi, new Uint8Array(100));
    if (kind === "acked") side.close(sapi);
    got += kind === "got" && message.length === 100 ? 1 : 0;
    closed += kind === "closed" && reason === "released" ? 1 : 0;
  }
};

for (const side of sides) if (side.role === "mobile") side.open([0x05, 0x24]);
while (closed < sides.length && slot < SLOTS) {
  slot += 1;
  for (const [at, side] of sides.entries()) if (arriving[at]) handle(side, side.take(arriving[at]));
  for (const [at, side] of sides.entries()) {
    const sent = side.next();
    handle(side, sent.notices);
    arriving[at ^ 1] = random() % 10 ? sent.block : null;
  }
}
console.log(`${LINKS} links, one block in ten lost: after ${slot} slots ${got} messages have arrived and ${closed} sides are closed`);
process.exitCode = closed < sides.length ? 1 : 0;
