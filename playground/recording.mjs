// The panel Recording of the views Block and Bursts: decodes lines of `um replay`, and opens each result in its view.
import { $, h, hex, write } from "./dom.mjs";
import { readRecording, replayLines } from "./lines.mjs";

const viewOf = ({ letter, soft, bsic }) => {
  const recorded = hex(new Uint8Array(soft.buffer));
  if (letter === "n") return ["block", { recorded }];
  return ["bursts", letter === "a" ? { kind: "access", bsic, heard: bsic, recorded } : { kind: "sync", recorded }];
};

export const recordingPanel = (um, go) => {
  const receive = () => {
    const list = $("r-answers");
    list.replaceChildren();
    write($("r-error"), "");
    try {
      for (const found of readRecording($("r-lines").value)) {
        const open = h("button", { type: "button", click: () => go(...viewOf(found)) }, "Open");
        list.append(h("li", {}, h("pre", {}, replayLines(um, found).join("\n")), open));
      }
    } catch (error) {
      write($("r-error"), error.message);
    }
  };
  $("r-receive").addEventListener("click", receive);
  $("r-file").addEventListener("change", async ({ target }) => {
    if (target.files.length === 0) return;
    $("r-lines").value = await target.files[0].text();
    receive();
  });
};
