// Helpers of the page: elements, octets as text, files, and messages to a screen reader.

/** The block that the views and lessons begin with. */
export const EXAMPLE = "0100150601020304052b2b2b2b2b2b2b2b2b2b2b2b2b2b";

export const $ = (id) => document.getElementById(id);

/** An element with attributes (a function is a listener) and children. */
export const h = (tag, attributes = {}, ...children) => {
  const element = document.createElement(tag);
  for (const [name, value] of Object.entries(attributes)) {
    if (typeof value === "function") element.addEventListener(name, value);
    else if (value === true) element.setAttribute(name, "");
    else if (value !== false && value !== undefined) element.setAttribute(name, value);
  }
  element.append(...children.flat());
  return element;
};

export const svg = (tag, attributes, text) => {
  const element = document.createElementNS("http://www.w3.org/2000/svg", tag);
  for (const [name, value] of Object.entries(attributes)) element.setAttribute(name, value);
  if (text !== undefined) element.textContent = text;
  return element;
};

/** Writes text where it changed, so that nothing else is laid out or spoken again. */
export const write = (element, text) => {
  if (element.textContent !== text) element.textContent = text;
};

export const hex = (octets) => Array.from(octets, (octet) => octet.toString(16).padStart(2, "0")).join("");
export const spaced = (octets) => hex(octets).replace(/..(?=.)/g, "$& ");

/** Octets of hexadecimal digits, blanks passed over; an Error says what is wrong. `count` octets where it is given. */
export const octetsOf = (text, count) => {
  const digits = text.replace(/\s/g, "");
  const bad = digits.match(/[^0-9a-f]/i);
  if (bad) throw new Error(`"${bad[0]}" is not a hexadecimal digit`);
  if (digits.length % 2) throw new Error(`${plural(digits.length, "digit")}; an octet has two`);
  if (count !== undefined && digits.length !== 2 * count) throw new Error(`${plural(digits.length / 2, "octet")}; expected ${count}`);
  return Uint8Array.from(digits.match(/../g) ?? [], (pair) => parseInt(pair, 16));
};

export const bitsOf = (text, count) => {
  const digits = text.replace(/\s/g, "");
  const bad = digits.match(/[^01]/);
  if (bad) throw new Error(`"${bad[0]}" is not a bit; expected ${count} bits, each 0 or 1`);
  if (digits.length !== count) throw new Error(`${plural(digits.length, "bit")}; expected ${count}`);
  return Uint8Array.from(digits, Number);
};

/** A whole number from least to most; an Error says what is wrong. */
export const wholeOf = (text, least, most) => {
  const value = Number(text);
  if (text !== "" && Number.isInteger(value) && value >= least && value <= most) return value;
  throw new Error(`${text || "no number"}; expected ${least} to ${most}`);
};

export const octetsOfBits = (bits) => {
  const octets = new Uint8Array(bits.length / 8);
  bits.forEach((bit, i) => (octets[i >> 3] |= bit << (i & 7)));
  return octets;
};

export const same = (a, b) => a.length === b.length && a.every((value, i) => value === b[i]);
export const plural = (count, word) => `${count} ${word}${count === 1 ? "" : "s"}`;
export const differ = (count, word) => `${plural(count, word)} ${count === 1 ? "differs" : "differ"}`;

/** Shows an error beside its input, and marks the input and the results of its view as outdated; no message clears all. */
export const complain = (input, message = "") => {
  const place = $(`${input.id}-error`);
  write(place, message);
  input.setAttribute("aria-invalid", message !== "");
  const view = input.closest(".view");
  view?.classList.toggle("outdated", view.querySelector("[aria-invalid=true]") !== null);
};

/** The value of an input by `read`, or undefined with what is wrong shown. */
export const valueOf = (input, read) => {
  try {
    const value = read(input.value);
    complain(input);
    return value;
  } catch (error) {
    complain(input, error.message);
    return undefined;
  }
};

/** A number input with its error: its value by `changed` whenever it is a whole number from least to most. */
export const onWhole = (input, least, most, changed) =>
  input.addEventListener("input", () => {
    const value = valueOf(input, (text) => wholeOf(text, least, most));
    if (value !== undefined) changed(value);
  });

export const announce = (text) => write($("announcer"), text);

export const save = (name, type, text) => {
  const link = h("a", { href: URL.createObjectURL(new Blob([text], { type })), download: name });
  link.click();
  setTimeout(() => URL.revokeObjectURL(link.href), 1000);
};

export const copyText = async (text) => {
  try {
    await navigator.clipboard.writeText(text);
    announce("Copied");
  } catch {
    announce("The browser does not let this page copy; select and copy the text yourself");
  }
};
