// A Worker that decodes blocks: each message is 592 soft bits, each answer the report.
import { load } from "../um.mjs";

const um = load();
onmessage = async ({ data }) => postMessage((await um).receiveBlock(data));
