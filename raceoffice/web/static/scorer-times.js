'use strict';
// A race's sheet of times: each boat's start, her laps or distance, an elapsed time instead of a finish, a finish or a
// code by hand; and what came of it.
import {element} from "./elements.js";
import {text} from "./texts.js";
import {ask, now} from "./office.js";
import {say} from "./dialogs.js";
import {remarkSentences, troubleWords} from "./remark-words.js";
import {saidWords} from "./said-words.js";
import {correctByHand} from "./finish-by-hand.js";
import {spaced} from "./sails.js";
import {chooseRace, raceShown, send, state} from "./desk.js";

const RACES = 40;
const HOUR = 3600, MINUTE = 60;
// How often a sheet is saved again that boats finish in meanwhile
const SAVES = 5;
// The sheet that is shown
let shown = null;

const at = (name, more = "") => `sheet/${encodeURIComponent(name)}${more}`;

function duration(seconds) {
  if (seconds === undefined || seconds === null) return "";
  const two = value => String(value).padStart(2, "0");
  return `${Math.floor(seconds / HOUR)}:${two(Math.floor(seconds % HOUR / MINUTE))}:${two(seconds % MINUTE)}`;
}

// The sheet of one race in a form
class Sheet {
  constructor(name, found, again, opened) {
    Object.assign(this, {name, found, again, opened, columns: found.columns});
    this.fields = new Map(found.rows.map(row => [row.sail, this.fieldsOf(row)]));
    this.forAll = this.columns.filter(key => key !== "elapsed");
    this.all = Object.fromEntries(this.forAll.map(key => [key, this.field(key, "", text("times.forTicked"))]));
    this.night = element("input", {type: "checkbox", id: "overnight", checked: found.overnight});
    this.node = element("form", {class: "step", onsubmit: event => { event.preventDefault(); this.save(); }},
      element("h2", {}, text("times.sheetOf", {number: found.race})), element("p", {class: "soft"}, text("times.whatFor")),
      this.changed = element("p", {class: "waits", role: "status", hidden: true}),
      element("div", {class: "wide", tabindex: "0", role: "region", "aria-label": text("times.sheetOf", {number: found.race})}, this.table()),
      element("fieldset", {class: "options"}, element("legend", {}, text("times.forTicked")),
        element("div", {class: "numbers"}, this.forAll.map(key => element("label", {class: "number"}, text(`times.${key}`), this.all[key]))),
        element("div", {class: "acts"}, element("button", {type: "button", id: "put-in", onclick: () => this.putIn()}, text("times.putIn")))),
      element("div", {class: "options"}, element("label", {}, this.night, element("span", {}, text("times.overnight")))),
      element("p", {class: "soft"}, text("times.rounding", {rounding: text(`new.rounding.${found.rounding}`)})),
      element("div", {class: "acts"}, element("button", {class: "main", id: "send-times"}, text("times.save"))));
  }

  field(key, value, label) {
    return element("input", {name: key, value, autocomplete: "off", class: "cell", "aria-label": `${label}: ${text(`times.${key}`)}`});
  }

  fieldsOf(row) {
    return {tick: element("input", {type: "checkbox", "aria-label": text("times.tick", {sail: spaced(row.sail)})}),
      ...Object.fromEntries(this.columns.map(key => [key, this.field(key, row[key], spaced(row.sail))]))};
  }

  table() {
    const heads = [...this.columns, "finish", "corrected"].map(key => element("th", {scope: "col"}, text(`times.${key}`)));
    return element("table", {id: "times-table", "aria-label": text("times.sheetOf", {number: this.found.race})}, element("thead", {}, element("tr", {}, element("td", {}), element("th", {scope: "col"}, text("common.sail")), heads)),
      element("tbody", {}, this.found.rows.map(row => this.row(row))));
  }

  row(row) {
    const fields = this.fields.get(row.sail);
    return element("tr", {"data-sail": row.sail}, element("td", {}, fields.tick), element("th", {scope: "row"}, spaced(row.sail)),
      this.columns.map(key => element("td", {}, fields[key])), element("td", {}, this.byHand(row)),
      element("td", {class: "corrected"}, this.corrected(row.sail)));
  }

  // Her finish or her code, which a press corrects
  byHand(row) {
    return element("button", {type: "button", class: "quiet", "data-hand": row.sail, "aria-label": `${spaced(row.sail)}: ${text("times.byHand")}`,
      onclick: async () => { if (await correctByHand(this.name, this.found.race, row, this.opened)) this.again(this); }}, row.code || row.finish || "–");
  }

  corrected(sail) {
    return duration(state(this.name)?.races[this.found.race]?.times?.[sail]);
  }

  // Shows the corrected times as they now are; what is typed stays.
  draw() {
    for (const row of this.node.querySelectorAll("tr[data-sail]")) row.querySelector(".corrected").textContent = this.corrected(row.dataset.sail);
  }

  // Puts the fields for all into the rows that are ticked.
  putIn() {
    for (const fields of this.fields.values()) {
      if (fields.tick.checked) for (const key of this.forAll) if (this.all[key].value.trim()) fields[key].value = this.all[key].value.trim();
    }
  }

  // What is typed: of each boat the cells that aren't as in the sheet
  typed() {
    const rows = {};
    for (const {sail, ...row} of this.found.rows.filter(one => this.fields.has(one.sail))) {
      const fields = this.fields.get(sail), given = this.columns.filter(key => fields[key].value.trim() !== row[key]);
      if (given.length) rows[sail] = Object.fromEntries(given.map(key => [key, fields[key].value.trim()]));
    }
    return rows;
  }

  // Takes over what was typed into the sheet as it was shown before, and shows what has changed in it since.
  takeOver(before) {
    const typed = before.typed(), changes = this.changesSince(before.found);
    for (const [sail, fields] of this.fields) {
      for (const [key, value] of Object.entries(typed[sail] ?? {})) fields[key].value = value;
      fields.tick.checked = before.fields.get(sail)?.tick.checked ?? false;
    }
    for (const key of this.forAll) this.all[key].value = before.all[key].value;
    if (before.night.checked !== before.found.overnight) this.night.checked = before.night.checked;
    this.isForm = changes.some(({key}) => this.columns.includes(key));
    this.changed.hidden = !changes.length;
    this.changed.textContent = text("times.changed", {what: changes.map(({sail, key, value}) =>
      `${spaced(sail)} ${text(`times.${key}`)} ${value || "–"}`).join(", ")});
  }

  // The cells that aren't as they were
  changesSince(found) {
    const was = new Map(found.rows.map(row => [row.sail, row]));
    return this.found.rows.flatMap(({sail, ...row}) => [...this.columns, "finish", "code"].filter(key => row[key] !== (was.get(sail)?.[key] ?? ""))
      .map(key => ({sail, key, value: row[key]})));
  }

  // Saves the sheet, and sends the times that follow from it. If somebody has changed it meanwhile, what is typed stays; a
  // finish or a code is no reason to look at it again.
  async save(left = SAVES) {
    const {race, tag} = this.found, rows = this.typed(), saved = await ask(at(this.name), {race, rows, tag, overnight: this.night.checked});
    if (saved.status !== 200) {
      const newer = saved.status === 422 && await this.again(this);
      if (newer && newer.found.tag !== tag && !newer.isForm && left) await newer.save(left - 1);
      else say(troubleWords(saved), true);
      return;
    }
    this.takeSaved(saved, rows);
    const done = await send(this.name, `TIMES ${race}`);
    if (!done) say(text("times.savedAlone"), true);
    else if (done.outcome !== "refused") say(saidWords(done.said).slice(0, 3).join("\n") || text("times.saved"));
    this.again(this);
  }

  // Takes over the sheet as it was saved, with what an empty field has come to. What was typed since stays.
  takeSaved(saved, rows) {
    const was = new Map(this.found.rows.map(row => [row.sail, {...row, ...rows[row.sail]}]));
    this.found = saved;
    for (const {sail, ...row} of saved.rows) {
      const fields = this.fields.get(sail);
      if (!fields) continue;
      fields.tick.checked = false;
      for (const key of this.columns) if (fields[key].value.trim() === was.get(sail)?.[key]) fields[key].value = row[key];
    }
    for (const key of this.forAll) this.all[key].value = "";
  }
}

function raceField(name, again) {
  const options = Array.from({length: RACES}, (_, place) => element("option", {value: place + 1, selected: place + 1 === raceShown(name)}, place + 1));
  return element("label", {class: "field"}, text("common.race"),
    element("select", {id: "times-race", onchange: event => { chooseRace(Number(event.target.value), name); again(); }}, options));
}

// Shows the sheet of a race: again with what was typed into it, if it is shown already. Gives it, or null.
async function show(page, name, before = null) {
  const asked = raceShown(name), opened = {seen: state(name)?.entries ?? 0, at: now()}, found = await ask(at(name, `/${asked}`)), again = sheet => show(page, name, sheet);
  // Somebody may have gone on to another race or class.
  if (asked !== raceShown(name) || !page.isConnected) return null;
  const wrong = found.status !== 200 ? troubleWords(found) : remarkSentences(found.wrong).join("\n");
  // What was typed isn't thrown away for that.
  if (wrong && before) return null;
  shown = wrong ? null : new Sheet(name, found, again, opened);
  if (before) shown.takeOver(before);
  page.replaceChildren(raceField(name, () => again()), shown?.node ?? element("p", {class: "step wrong"}, wrong));
  return shown;
}

// What the office has taken since the sheet was shown
export function drawTimes() {
  shown?.draw();
}

// The page of a class by corrected time; it has a life of its own.
export function timesPage(name) {
  const page = element("main", {class: "steps"}, element("p", {class: "soft"}, text("times.reading")));
  show(page, name);
  return page;
}
