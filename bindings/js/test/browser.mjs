// The comparison in a browser. A page imports `run`; as a Worker, this file posts the result of `run`.
import { load } from "../um.mjs";
import { compare, times } from "./compare.mjs";

const FILES = {
  codeIn: "/vectors/code.in",
  codeOut: "/vectors/code.out",
  repairIn: "/vectors/repair.in",
  repairOut: "/vectors/repair.out",
  answers: "/answers.txt",
};

export const run = async (timed) => {
  const um = await load(fetch("/um.wasm"));
  const texts = {};
  for (const [name, path] of Object.entries(FILES)) texts[name] = await (await fetch(path)).text();
  return { parts: compare(um, texts), times: timed ? times(um) : null };
};

if (typeof document === "undefined") run(false).then(postMessage);
