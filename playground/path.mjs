// The radio path of the views Block and Bursts: noise by Es/N0 with a seed, and bits that are flipped; and the table of a report.
import { $, complain, h, onWhole, plural, write } from "./dom.mjs";

const NONE = 13; // the slider's position for no noise

export const radioPath = (host, prefix, length, changed) => {
  const path = { db: null, seed: 1, flips: new Set() };
  const noise = h("input", { type: "range", id: `${prefix}-noise`, min: -6, max: NONE, step: 0.5 });
  const error = `${prefix}-seed-error`;
  const seed = h("input", { type: "number", id: `${prefix}-seed`, min: 1, max: 999999, value: 1, "aria-describedby": error });
  const says = h("span", { id: `${prefix}-noise-says`, class: "mono" });
  const again = h("button", { type: "button", id: `${prefix}-again` }, "New noise");
  const undo = h("button", { type: "button", id: `${prefix}-undo` }, "Undo flips");
  const flipped = h("span", { id: `${prefix}-flipped`, class: "dim" });
  host.prepend(
    h("div", { class: "fields" }, h("label", {}, "Es/N0 ", noise), says, h("label", {}, "seed ", seed),
      h("span", { id: error, class: "error", role: "alert" }), again),
    h("div", { class: "fields" }, undo, flipped),
  );
  noise.addEventListener("input", () => {
    path.db = Number(noise.value) === NONE ? null : Number(noise.value);
    changed();
  });
  onWhole(seed, 1, 999999, (value) => {
    path.seed = value;
    changed();
  });
  again.addEventListener("click", () => {
    path.seed++;
    changed();
  });
  undo.addEventListener("click", () => {
    path.flips.clear();
    changed();
  });

  path.flip = (i) => {
    if (!path.flips.delete(i)) path.flips.add(i);
    changed();
  };
  /** The soft bits with the flipped ones inverted, as a copy. */
  path.over = (soft) => Int8Array.from(soft, (value, i) => (path.flips.has(i) ? -value : value));
  path.show = (recorded) => {
    for (const control of [noise, seed, again]) control.disabled = recorded;
    noise.value = path.db ?? NONE;
    noise.setAttribute("aria-valuetext", path.db === null ? "no noise" : `${path.db} dB`);
    write(says, path.db === null ? "no noise" : `${path.db.toFixed(1)} dB`);
    if (document.activeElement !== seed) {
      seed.value = path.seed;
      complain(seed);
    }
    const places = [...path.flips].sort((a, b) => a - b);
    const list = places.length > 12 ? "" : `: ${places.join(", ")}`;
    write(flipped, places.length ? `${plural(places.length, "bit")} flipped${list}` : "no bit flipped");
    undo.disabled = places.length === 0;
  };
  path.set = (params) => {
    const db = Number(params.get("noise") ?? NONE);
    path.db = Number.isFinite(db) && db < NONE ? Math.max(-6, db) : null;
    path.seed = Math.max(1, Math.round(Number(params.get("seed") ?? 1)) || 1);
    const places = (params.get("flips") ?? "").split(".").filter(Boolean).map(Number);
    path.flips = new Set(places.filter((place) => Number.isInteger(place) && place >= 0 && place < length));
  };
  path.get = () => ({
    ...(path.db !== null && { noise: path.db, seed: path.seed }),
    ...(path.flips.size && { flips: [...path.flips].sort((a, b) => a - b).join(".") }),
  });
  return path;
};

/** The rows of a report: [key, name, words, class]. The rows are made once, and only words that changed are written. */
export const rows = (table, entries) => {
  for (const [key, name, words, kind = ""] of entries) {
    const id = `${table.id}-${key}`;
    if (!$(id)) table.append(h("tr", {}, h("th", { scope: "row" }), h("td", { id })));
    const cell = $(id);
    write(cell.previousSibling, name);
    write(cell, words);
    cell.className = kind;
  }
};
