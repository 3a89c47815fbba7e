// files.mjs - reads files in node. A bundle for browsers has an empty module in its place: bundlers cannot resolve "node:fs/promises".
export { readFile } from "node:fs/promises";
