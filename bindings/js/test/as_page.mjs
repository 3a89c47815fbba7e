// A stand-in for a page, to run in node what bundlers make for browsers: an address, a fetch of files beside the bundle, and no `process`.
//
//   node --import ./as_page.mjs BUNDLE
import { readFileSync } from "node:fs";
import { pathToFileURL } from "node:url";

const address = pathToFileURL(process.argv[1]).href;
const document = { baseURI: address, currentScript: { src: address } };
Object.assign(globalThis, { self: globalThis, location: new URL(address), document });
globalThis.fetch = async (path) => new Response(readFileSync(new URL(path, address)));
globalThis.process = undefined;
