// node test/node.mjs WASM VECTORS ANSWERS [times]: compares the module, in node, in this thread and in a Worker, with the vectors and the
// native library's answers
import { readFileSync } from "node:fs";
import { join } from "node:path";
import { isMainThread, parentPort, Worker, workerData } from "node:worker_threads";
import { load } from "../um.mjs";
import { compare, times } from "./compare.mjs";
import { tryArguments, tryVersions } from "./arguments.mjs";
import { tryDataLinks } from "./datalinks.mjs";
import { tryEstablishments } from "./establishments.mjs";
import { tryHostile } from "./hostile.mjs";
import { trySlots } from "./slots.mjs";

const [wasm, folder, answers, timed] = isMainThread ? process.argv.slice(2) : workerData;
const read = (path) => readFileSync(path, "utf8");
const texts = {
  codeIn: read(join(folder, "code.in")),
  codeOut: read(join(folder, "code.out")),
  repairIn: read(join(folder, "repair.in")),
  repairOut: read(join(folder, "repair.out")),
  answers: read(answers),
};
const um = await load(readFileSync(wasm));
const found = compare(um, texts);

if (!isMainThread) {
  parentPort.postMessage(found);
} else {
  const inWorker = await new Promise((resolve, reject) => {
    new Worker(new URL(import.meta.url), { workerData: process.argv.slice(2) }).on("message", resolve).on("error", reject);
  });
  const wrong = [...found, ...inWorker].filter((part) => part.wrong);
  for (const part of wrong) console.log("js: node:", JSON.stringify(part));
  if (wrong.length === 0) console.log(`js: node ${process.versions.node}, also in a Worker: ${found.map((part) => part.name).join(", ")}`);
  await tryVersions(um);
  console.log(`js: ${tryArguments(um)} invalid calls are refused, and an instance that trapped is discarded`);
  console.log(`js: ${tryHostile(um, 3000)} calls with hostile arguments are refused, or answered as what they stand for`);
  trySlots(um);
  console.log("js: time slots, SCH and random access are as the standard's tables have them");
  tryDataLinks(um);
  tryEstablishments(um);
  console.log("js: two data links deliver every message over a path that loses one block in ten");
  if (timed) console.log("js: us per call in node:", JSON.stringify(times(um)));
  process.exitCode = wrong.length ? 1 : 0;
}
