// The fields of a frame, in the views Block and Frame.
import { KINDS } from "../bindings/js/um.mjs";
import { complain, h, hex, octetsOf, valueOf } from "./dom.mjs";
import { has } from "./lines.mjs";

const NUMBERS = [["sapi", "SAPI"], ["ns", "N(S)"], ["nr", "N(R)"]];
const BITS = [["cr", "C/R"], ["pf", "P/F"], ["more", "M"]];

// the information of a frame; an Error says how many octets the kind carries on the channel
const infoOf = (text, kind, channel) => {
  const info = octetsOf(text);
  const most = channel === "sacch" ? 18 : 20;
  const name = `${kind === "i" ? "an" : "a"} ${kind.toUpperCase()} frame`;
  if (info.length > most) throw new Error(`${info.length} octets; ${name} on ${channel.toUpperCase()} carries at most ${most}`);
  if (kind === "i" && info.length === 0) throw new Error(`no octets; ${name} carries at least one`);
  return info;
};

/** Puts the fields into `host`; `changed(frame)` is told each new frame that is valid on the channel. */
export const frameForm = (host, prefix, channelOf, changed) => {
  const inputs = {};
  const field = (name, label, input) => {
    inputs[name] = input;
    input.id = `${prefix}-${name}`;
    host.append(h("label", {}, label, " ", input));
  };
  field("kind", "Kind", h("select", {}, ...KINDS.map((kind) => h("option", { value: kind }, kind.toUpperCase()))));
  for (const [name, label] of NUMBERS) field(name, label, h("select", {}, ...[0, 1, 2, 3, 4, 5, 6, 7].map((n) => h("option", {}, n))));
  for (const [name, label] of BITS) field(name, label, h("input", { type: "checkbox" }));
  field("info", "Information", h("input", { class: "mono", size: 44, spellcheck: "false", "aria-describedby": `${prefix}-info-error` }));
  host.append(h("span", { id: `${prefix}-info-error`, class: "error", role: "alert" }));

  const enable = () => {
    for (const name of ["ns", "nr", "more", "info"]) inputs[name].disabled = !has(inputs.kind.value, name);
  };
  const read = () => {
    enable();
    const kind = inputs.kind.value;
    const info = valueOf(inputs.info, (text) => (has(kind, "info") ? infoOf(text, kind, channelOf()) : []));
    if (info === undefined) return;
    const frame = { kind, info };
    for (const [name] of NUMBERS) frame[name] = has(kind, name) ? Number(inputs[name].value) : 0;
    for (const [name] of BITS) frame[name] = has(kind, name) && inputs[name].checked ? 1 : 0;
    changed(frame);
  };
  // a select reports `change`, and not in every browser `input` too
  for (const [event, isSelect] of [["input", false], ["change", true]])
    host.addEventListener(event, ({ target }) => (target.tagName === "SELECT") === isSelect && read());

  /** Shows a frame that was read; one that was not leaves the fields as they are. */
  return (frame) => {
    host.classList.toggle("stale", Boolean(frame.unread));
    complain(inputs.info);
    if (frame.unread) return;
    inputs.kind.value = frame.kind;
    for (const [name] of NUMBERS) inputs[name].value = frame[name];
    for (const [name] of BITS) inputs[name].checked = frame[name] === 1;
    if (document.activeElement !== inputs.info) inputs.info.value = hex(frame.info);
    enable();
  };
};
