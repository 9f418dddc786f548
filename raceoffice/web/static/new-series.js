'use strict';
// A new series: an entry list from any spreadsheet, and what the sailing instructions say.
import {element, fill} from "./elements.js";
import {text} from "./texts.js";
import {ask} from "./office.js";
import {say} from "./dialogs.js";
import {remarkSentences, remarkWords, troubleWords} from "./remark-words.js";
import {instructionsStep, settingsOf, wrongWords} from "./new-series-settings.js";
import {rulesWords} from "./rules-words.js";

// Milliseconds that reading a list and opening an office may take
const READING = 20000, OPENING = 95000;
const PIECE = 32768;

// A short name for a title, as autumn-cup
function shortName(title) {
  return title.normalize("NFD").toLowerCase().replace(/[^a-z0-9]+/g, "-").replace(/^-+|-+$/g, "").slice(0, 24);
}

async function base64Of(file) {
  const bytes = new Uint8Array(await file.arrayBuffer());
  let letters = "";
  for (let at = 0; at < bytes.length; at += PIECE) letters += String.fromCharCode(...bytes.subarray(at, at + PIECE));
  return btoa(letters);
}

// What is known of the list up to now, and the parts of the page that show it
class EntryList {
  constructor(changed) {
    this.changed = changed;
    this.data = "";
    this.name = "";
    this.found = null;
    this.shown = element("div", {role: "status"});
  }

  get isRight() {
    return this.found?.status === 200 && this.found.wrong.length === 0;
  }

  async read(file) {
    this.data = await base64Of(file);
    this.name = file.name;
    this.look(null);
  }

  // Has the office read the list. `column` is the one with the sails, if somebody had to say so.
  async look(column) {
    this.found = await ask("list", {data: this.data, column}, READING);
    this.changed();
    if (this.found.status === 200) fill(this.shown, this.parts());
    else fill(this.shown, element("p", {class: "wrong"}, troubleWords(this.found)));
  }

  parts() {
    const {boats, done, wrong} = this.found;
    return [element("p", {}, element("b", {}, this.name), wrong.length ? "" : ` · ${text("common.boats", {n: boats.length})}`),
      remarkSentences(done).map(words => element("p", {class: "done"}, `✓ ${words}`)), this.columnField(),
      element("p", {class: "wrong"}, remarkSentences(wrong).join("\n")), boats.length ? this.table() : null];
  }

  columnField() {
    if (this.found.is_sail_known || !this.found.heads.length) return null;
    const options = this.found.heads.map((head, at) => element("option", {value: at}, head || text("new.column", {number: at + 1})));
    const chosen = event => { if (event.target.value) this.look(Number(event.target.value)); };
    return element("label", {class: "field"}, text("new.whichColumn"),
      element("select", {onchange: chosen}, element("option", {value: ""}, text("new.choose")), options));
  }

  table() {
    const heads = [...["common.sail", "common.boat", "new.helm", "new.club"].map(key => text(key)), ...this.found.ratings ?? []]
      .map(words => element("th", {scope: "col"}, words));
    const rows = this.found.boats.map(boat => element("tr", {}, boat.map((words, at) => element(at ? "td" : "th", at ? {} : {scope: "row"}, words))));
    return element("div", {class: "boats", tabindex: "0", role: "region", "aria-label": text("new.entryList")},
      element("table", {"aria-label": text("new.entryList")}, element("thead", {}, element("tr", {}, heads)), element("tbody", {}, rows)));
  }
}

// The place onto which a list is dropped, or where a file is chosen
function dropPlace(list) {
  const take = file => { if (file) list.read(file); };
  const over = isOver => event => { event.preventDefault(); place.classList.toggle("over", isOver); };
  const file = element("input", {type: "file", id: "list", accept: ".csv,.txt,text/csv", onchange: event => take(event.target.files[0])});
  const place = element("label", {class: "drop", ondragover: over(true), ondragleave: over(false),
    ondrop: event => { over(false)(event); take(event.dataTransfer.files[0]); }},
    text("new.dropHere"), element("small", {class: "soft"}, text("new.whichFiles")), file);
  return place;
}

function nameFields() {
  const short = element("input", {id: "short", name: "short", placeholder: "autumn-cup", pattern: "[A-Za-z0-9][A-Za-z0-9\\-]*", required: true});
  let isOwn = false;
  short.oninput = () => { isOwn = true; };
  const title = element("input", {id: "series-title", name: "title", required: true,
    oninput: event => { if (!isOwn) short.value = shortName(event.target.value); }});
  const field = (key, input) => element("label", {class: "field"}, text(key), input);
  return [element("div", {class: "two"}, field("new.title", title), field("new.short", short)),
    element("div", {class: "two"}, field("new.class", element("input", {name: "class"})), field("new.clubIfAny", element("input", {name: "club"})))];
}

const step = (number, title, ...inside) => element("section", {class: "step"}, element("h2", {}, element("b", {"aria-hidden": "true"}, number), title), inside);

// What the settings mean, as the office says it, whenever they are others
function meaningOf(list) {
  const shown = element("div", {class: "meaning", id: "meaning", role: "status"});
  let asked = 0;
  async function look(form) {
    const mine = ++asked, said = await ask("settings", {settings: settingsOf(new FormData(form)), text: list.found?.numbered ?? "", system: form.elements.system.value}, READING);
    if (mine !== asked) return;
    const wrong = said.status === 200 ? wrongWords(said) : [troubleWords(said)];
    fill(shown, element("h3", {}, text("new.meaning")), wrong.length ? element("p", {class: "wrong"}, wrong.join("\n")) : element("p", {}, rulesWords(said.settings)),
      said.note?.length ? element("p", {class: "waits"}, remarkSentences(said.note).join("\n")) : null);
  }
  return {shown, look};
}

// The form; `done` is called when the series is there and its office is open.
export function newSeries(done) {
  const wrong = element("p", {class: "wrong", id: "made", role: "alert"});
  const make = element("button", {class: "main", id: "make", disabled: true}, text("new.make"));
  const list = new EntryList(() => { make.disabled = !list.isRight; meaning.look(form); });
  const meaning = meaningOf(list);
  async function send(event) {
    event.preventDefault();
    const form = new FormData(event.target);
    make.disabled = true;
    wrong.textContent = "";
    const made = await ask("new", {name: form.get("short"), text: list.found.text, settings: settingsOf(form), system: form.get("system"), rounding: form.get("rounding")}, OPENING);
    make.disabled = false;
    if (made.status === 200 && made.open) {
      say(text("new.isMade", {title: form.get("title")}));
      done();
    } else {
      wrong.textContent = made.status === 200 ? made.said.map(remarkWords).join("\n") : troubleWords(made);
    }
  }
  const form = element("form", {class: "steps", onsubmit: send, onchange: () => meaning.look(form)},
    step(1, text("new.entryList"), dropPlace(list), list.shown), step(2, text("new.name"), nameFields()),
    step(3, text("new.instructions"), instructionsStep(), meaning.shown), wrong, make);
  meaning.look(form);
  return element("main", {}, form);
}
