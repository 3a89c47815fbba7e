// What um.d.ts allows with the library of a browser: compiled by tsc, never run.
import { load, Um } from "um-gsm";

const compiled = new WebAssembly.Module(new Uint8Array(8));
export const loaded: Promise<Um>[] = [load(), load(fetch("um.wasm")), load(new URL("um.wasm", location.href)), load(compiled)];
