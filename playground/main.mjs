// The page: the module, the six views, and the address, which holds the state of the current view.
import { load } from "../bindings/js/um.mjs";
import { BlockView } from "./block.mjs";
import { $, h, write } from "./dom.mjs";
import { FacchView } from "./facch.mjs";
import { FrameView } from "./frame.mjs";
import { LESSONS } from "./lessons.mjs";
import { LinkView } from "./link.mjs";
import { recordingPanel } from "./recording.mjs";
import { BurstsView } from "./single.mjs";

const addressOf = (view, params) => `#${view}?${new URLSearchParams(params)}`;

class Page {
  constructor(um) {
    const changed = () => this.#changed();
    const go = (view, params) => {
      this.#write();
      location.hash = addressOf(view, params);
    };
    this.views = {
      block: new BlockView(um, changed),
      bursts: new BurstsView(um, changed),
      facch: new FacchView(um, changed),
      frame: new FrameView(um, changed),
      link: new LinkView(um, changed, (params) => go("block", params)),
      lessons: { set: () => 0, get: () => ({}) },
    };
    recordingPanel(um, go);
    LESSONS.forEach((lesson, i) => $("lessons-list").append(
      h("li", {}, h("a", { href: this.#stepAddress(i, 0), id: `lesson-${i + 1}` }, lesson.title), h("br"), lesson.about)));
    addEventListener("hashchange", () => this.show());
    // a replaceState while the browser follows a link would cancel that, so a pending one is made before
    addEventListener("click", ({ target }) => target.closest?.("a") && this.#write(), true);
    $("skip").addEventListener("click", (event) => {
      event.preventDefault();
      $("main").focus();
    });
  }

  #stepAddress(lesson, step) {
    const { view, params } = LESSONS[lesson].steps[step];
    return addressOf(view, { ...params, lesson: `${lesson + 1}.${step + 1}` });
  }

  /** Shows the view and the state that the address holds. */
  show() {
    this.address = location.hash;
    const [name, query = ""] = this.address.slice(1).split("?");
    const view = Object.hasOwn(this.views, name) ? name : "block";
    const params = new URLSearchParams(query);
    clearTimeout(this.later);
    if (this.view) this.tab(this.view).href = addressOf(this.view, this.views[this.view].get());
    if (this.view === "link" && view !== "link") this.views.link.leave();
    this.view = view;
    for (const other of Object.keys(this.views)) {
      $(other).hidden = other !== view;
      if (other === view) this.tab(other).setAttribute("aria-current", "page");
      else this.tab(other).removeAttribute("aria-current");
    }
    $("recording").hidden = view !== "block" && view !== "bursts";
    this.#showLesson(params.get("lesson"));
    try {
      write($("failure"), "");
      $("failure").hidden = true;
      this.views[view].set(params);
    } catch (error) {
      write($("failure"), `The address is not a state of this view: ${error.message}`);
      $("failure").hidden = false;
      this.views[view].set(new URLSearchParams());
    }
  }

  #showLesson(place) {
    const [lesson, step] = (place ?? "").split(".").map((number) => Number(number) - 1);
    const found = LESSONS[lesson]?.steps[step];
    this.lesson = found && place;
    $("lesson").hidden = !found;
    if (!found) return;
    const { title, steps } = LESSONS[lesson];
    write($("lesson-title"), `Lesson ${lesson + 1}: ${title}`);
    $("lesson-text").replaceChildren(...found.text.map((words) => h("p", {}, words)));
    write($("lesson-place"), `step ${step + 1} of ${steps.length}`);
    const link = (id, to, words) => {
      $(id).hidden = to === null;
      if (to !== null) $(id).href = to;
      if (words) write($(id), words);
    };
    link("lesson-before", step > 0 ? this.#stepAddress(lesson, step - 1) : null);
    const last = step + 1 === steps.length;
    const more = lesson + 1 < LESSONS.length;
    const next = last ? (more ? this.#stepAddress(lesson + 1, 0) : null) : this.#stepAddress(lesson, step + 1);
    link("lesson-next", next, last ? "Next lesson" : "Next");
    link("lesson-end", "#lessons");
    $("lesson-title").focus();
  }

  #changed() {
    clearTimeout(this.later);
    this.later = setTimeout(() => this.#write(), 150);
  }

  // writes the state of the view into the address, without a history entry, and into its link above
  #write() {
    clearTimeout(this.later);
    const params = this.views[this.view].get();
    this.tab(this.view).href = addressOf(this.view, params);
    history.replaceState(null, "", addressOf(this.view, { ...params, ...(this.lesson && { lesson: this.lesson }) }));
  }

  tab(view) {
    return document.querySelector(`nav [data-view=${view}]`);
  }
}

try {
  const um = await load(unpack("wasm"));
  const page = new Page(um);
  $("loading").remove();
  page.show();
  globalThis.playground = { um, page };
} catch (error) {
  $("loading")?.remove();
  $("failure").textContent = `The page could not start: ${error.message}`;
  $("failure").hidden = false;
  throw error;
}
