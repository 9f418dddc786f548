'use strict';
// A late entry, and the names of a boat that the entry list lacks.
import {element} from "./elements.js";
import {text} from "./texts.js";
import {ask} from "./office.js";
import {choose, say} from "./dialogs.js";
import {remarkWords, troubleWords} from "./remark-words.js";
import {spaced} from "./sails.js";
import {state} from "./desk.js";
import {findBoat} from "./boat-finder.js";
import {addressOf, sendAsking, withClass} from "./sending.js";
import {line} from "./scorer-corrections.js";
import {sendTimesAgain} from "./scorer-retimed.js";

const FIELDS = {name: "scorer.boatName", helm: "new.helm", club: "new.club", rating: "scorer.rating"};
// Letters of a name
const LONGEST = 80;
// Milliseconds that reading and writing the entry list may take on a busy computer, and closing an office and opening it
// again; how many of its last words are shown
const LONG = 60000, REMOVING = 135000, SHOWN = 4;
const button = (value, label, look) => ({value, label, look});

const listOf = name => ask(addressOf("listed", name), undefined, LONG);

async function columnsOfList(name) {
  const found = await listOf(name);
  return found.status === 200 ? found.columns : [];
}

// Fields for the names that the entry list has columns for; none if it can't be read.
function nameFields(columns, was = {}) {
  return Object.fromEntries(columns.map(name => [name, element("input", {name, maxlength: LONGEST, autocomplete: "off", value: was[name] ?? ""})]));
}

const valuesOf = fields => Object.fromEntries(Object.entries(fields).map(([name, field]) => [name, field.value.trim()]));

const shown = fields => Object.entries(fields).map(([name, field]) => element("label", {class: "field"}, text(FIELDS[name]), field));

function namesIn(fields) {
  return Object.fromEntries(Object.entries(valuesOf(fields)).filter(([, words]) => words));
}

async function putIntoList(name, sail, names, was = {}) {
  const done = await ask(addressOf("listed", name), {sail: spaced(sail), ...names, was}, LONG);
  if (done.status === 200) {
    say(text("scorer.isListed", {sail: spaced(sail)}));
    if (names.rating) sendTimesAgain(name, sail);
  } else say(`${text("scorer.isNotListed", {sail: spaced(sail)})}\n${troubleWords(done)}`, true);
}

// Whether a boat has a rating, needs none, or is meant to have none
async function isRatingMeant(field) {
  return !field || field.value.trim() !== "" || await choose(text("scorer.noRating"), text("scorer.noRatingMeans"),
    [button("", text("common.no")), button("yes", text("common.yes"), "main")]) === "yes";
}

// Asks for a boat, enters her, and puts her names into the list once that was taken.
export async function enterLate(name) {
  const fields = nameFields(await columnsOfList(name)), sail = element("input", {placeholder: "GBR 123", autocomplete: "off"});
  const inside = [text("scorer.lateMeans"), element("label", {class: "field"}, text("common.sail"), sail), ...shown(fields)];
  const asked = () => choose(withClass(text("scorer.lateEntry"), name), inside, [button("", text("common.cancel")), button("yes", text("scorer.enterHer"), "main")]);
  let done = await asked();
  while (done === "yes" && !await isRatingMeant(fields.rating)) done = await asked();
  const typed = sail.value.replace(/\s/g, ""), names = namesIn(fields);
  if (done !== "yes" || !typed) return;
  const sent = await line(name, `ENTER ${typed}`);
  if (sent?.outcome === "taken" && Object.keys(names).length) putIntoList(name, sent.line.split(" ")[1], names);
}

async function nameBoat(name, sail) {
  const fields = nameFields(await columnsOfList(name));
  const done = await choose(withClass(text("scorer.nameHer", {sail: spaced(sail)}), name), [text("scorer.intoList"), ...shown(fields)],
    [button("", text("common.cancel")), button("yes", text("times.putIn"), "main")]);
  if (done === "yes") putIntoList(name, sail, namesIn(fields));
}

// Asks what is wrong with a boat's names, and puts them right in the entry list once somebody says yes.
export async function correctNames(name) {
  const sail = await findBoat(name, text("scorer.whoseNames"), state(name).boats.map(boat => boat[0]));
  if (!sail) return;
  const found = await listOf(name);
  if (found.status !== 200) return say(troubleWords(found), true);
  const was = found.rows[sail] ?? {}, fields = nameFields(found.columns, was);
  const done = await choose(withClass(`${text("scorer.correctNames")} · ${spaced(sail)}`, name), [text("scorer.namesMean"), ...shown(fields)],
    [button("", text("common.cancel")), button("yes", text("scorer.correctThem"), "main")]);
  const names = valuesOf(fields), others = Object.keys(names).filter(key => names[key] !== (was[key] ?? ""));
  if (done !== "yes" || !others.length) return;
  const changes = others.map(key => `${text(FIELDS[key])}: ${was[key] || "–"} → ${names[key] || "–"}`);
  const isMeant = await choose(text("common.isThatRight"), [text("scorer.namesQuestion", {sail: spaced(sail)}), element("p", {}, changes.join("\n"))],
    [button("", text("common.no")), button("yes", text("common.yes"), "main")]);
  if (isMeant === "yes") putIntoList(name, sail, Object.fromEntries(others.map(key => [key, names[key]])), was);
}

// Takes a boat that was entered by mistake out of the journal. The office asks before, with all that goes.
export async function takeOut(name) {
  const sail = await findBoat(name, text("scorer.whoIsOut"), state(name).boats.map(boat => boat[0]), text("scorer.outMeans"));
  if (!sail) return;
  const done = await sendAsking("remove", name, {sail}, {patience: REMOVING, tries: 0});
  if (done) say(done.open ? text("scorer.isOut", {sail: spaced(sail), copy: done.copy}) : done.said.slice(-SHOWN).map(remarkWords).join("\n"), !done.open);
}

// The boats that are entered and not in the entry list, each with a button
export function unlistedPart(name) {
  const sails = state(name).unlisted ?? [];
  if (!sails.length) return null;
  return element("div", {class: "waits", id: "unlisted"}, element("p", {}, text("scorer.unlisted")),
    element("div", {class: "acts"}, sails.map(sail => element("button", {type: "button", "data-key": sail,
      onclick: () => nameBoat(name, sail)}, text("scorer.nameHer", {sail: spaced(sail)})))));
}
