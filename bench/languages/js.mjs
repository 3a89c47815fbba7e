// The package for JavaScript: us a block for each form of soft bits, the least of many rounds in turns, with its mark; from measure.sh.
import { load, softFromBits } from "../../bindings/js/um.mjs";

const um = await load(process.argv[2]);
const octets = Uint8Array.from({ length: 23 }, (_, i) => (i * 37) & 255);
const hard = softFromBits(um.sendBlock(octets, 5));
const soft = hard.slice();
soft[3] = Math.sign(soft[3]) * 126;
const rows = (list) => [0, 1, 2, 3].map((i) => list.slice(148 * i, 148 * i + 148));
// the call of the module alone, on soft bits that lie in its memory
const { memory, __heap_base: base, um_receive_block: receive } = um.exports;
const at = (Number(base.value) + 63) & ~63;
new Int8Array(memory.buffer).set(soft, at);
const [AT, REPORT] = [BigInt(at), BigInt(at + 1024)];
const ALONE = "um_receive_block alone, soft bits";
// of each call how much more than the module alone it may take
const CALLS = {
  [ALONE]: [null, () => receive(AT, REPORT)],
  "receiveBlock, an Int8Array, soft bits": [0.8, () => um.receiveBlock(soft)],
  "receiveBlock, an Int8Array, hard bits": [0.8, () => um.receiveBlock(hard)],
  "receiveBlock, four Int8Array": [1.1, () => um.receiveBlock(four)],
  "receiveBlock, an array of 592": [3, () => um.receiveBlock(list)],
  "receiveBlock, four arrays of 148": [3, () => um.receiveBlock(lists)],
  "receiveBlockAmong, 64 words": [null, () => um.receiveBlockAmong(soft, 64)],
  "sendBlock": [null, () => um.sendBlock(octets, 5)],
};
const [four, list, lists] = [rows(soft), Array.from(soft), rows(Array.from(soft))];

const COUNT = 150;
const best = {};
for (let round = 0; round < 300; round++) {
  for (const [name, [, call]] of Object.entries(CALLS)) {
    const start = process.hrtime.bigint();
    for (let i = 0; i < COUNT; i++) call();
    best[name] = Math.min(best[name] ?? Infinity, Number(process.hrtime.bigint() - start) / COUNT / 1000);
  }
}
console.log(`JavaScript, node ${process.versions.node}`);
for (const [name, [more]] of Object.entries(CALLS)) {
  const mark = more && (best[ALONE] + more).toFixed(2);
  console.log(`  ${name}: ${best[name].toFixed(2)}${mark ? `, mark ${mark}${best[name] > mark ? ", over it" : ""}` : ""}`);
}
