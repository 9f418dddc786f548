'use strict';
// Finishers that were recorded in the wrong race: they go to another one with their codes and, by corrected time, with
// their rows of the sheet.
import {element} from "./elements.js";
import {text} from "./texts.js";
import {ask} from "./office.js";
import {choose, say} from "./dialogs.js";
import {remarkSentences, troubleWords} from "./remark-words.js";
import {called, raceNumbered, state} from "./desk.js";
import {spaced} from "./sails.js";
import {atTheLine, heldBy} from "./race-view.js";
import {addressOf, withClass} from "./sending.js";
import {agreedOfLines, lines} from "./scorer-unfinished.js";
import {isJurys, linesOfCodes, linesOfOtherRace, linesOfOtherSheet} from "./corrections.js";

const RACES = 40;
const cancel = () => ({value: "", label: text("common.cancel")});

const isEntered = (name, sail) => state(name).boats.some(boat => boat[0] === sail);
// A sheet's rows of boats that aren't entered stay as they are.
const entered = (name, rows) => rows.filter(row => isEntered(name, row.sail));

// The finishers of a race as they came, also those that only the sheet has
export function finishersOf(name, race) {
  const {handicap} = state(name), sheet = handicap ? race.sheet?.rows ?? {} : {};
  return [...new Set([...handicap ? atTheLine(race).order.flat() : [], ...race.order.flat(),
    ...Object.keys(sheet).filter(sail => !sheet[sail].code && sheet[sail].elapsed !== null)])].filter(sail => isEntered(name, sail));
}

// Says before whose rows of the sheet stay: no line is taken of a boat that isn't entered.
function rowsThatStay(name, number, race) {
  const sails = Object.keys(race.sheet?.rows ?? {}).filter(sail => !isEntered(name, sail));
  return sails.length ? element("p", {class: "wrong"}, text("scorer.rowsStay", {n: sails.length, sails: sails.map(spaced), name: `times/race-${number}.csv`})) : null;
}

// Says before what stays: the jury alone clears what it has decided.
function rulingsThatStay(name, number, race, sails) {
  const ruled = sails.filter(sail => isJurys(race, sail)).map(sail => called(sail, name));
  return ruled.length ? element("p", {class: "wrong"}, text("scorer.rulingsStay", {number, sails: ruled})) : null;
}

// Which finishers, codes and penalties belong to which race; null if none are to be moved.
async function asked(name, number, race, finishers) {
  const holding = Object.keys({...race.codes, ...race.penalties, ...race.redress});
  const coded = holding.filter(sail => !finishers.includes(sail) && !isJurys(race, sail));
  const field = element("select", {"aria-label": text("common.race")},
    Array.from({length: RACES}, (_, at) => at + 1).filter(one => one !== number).map(one => element("option", {value: one}, one)));
  const codes = element("input", {type: "checkbox", id: "codes-too", checked: true});
  // From the first finisher on it is the whole race.
  const from = element("select", {"aria-label": text("scorer.fromBoat"), onchange: () => { codes.checked = from.selectedIndex === 0; }},
    finishers.map(sail => element("option", {value: sail}, called(sail, name))));
  const done = await choose(text("scorer.otherRace"), [element("label", {class: "field"}, text("scorer.fromBoat"), from),
    coded.length ? element("div", {class: "options"}, element("label", {}, codes, element("span", {},
      text("scorer.codesToo", {codes: coded.map(sail => [called(sail, name), ...heldBy(race, sail)].join(" "))})))) : null,
    element("label", {class: "field"}, text("scorer.belongTo"), field), rulingsThatStay(name, number, race, holding), rowsThatStay(name, number, race)], [cancel(), {value: "yes", label: text("scorer.putThem"), look: "main"}]);
  if (done !== "yes") return null;
  // Others may have finished meanwhile, and she may not be there any more.
  const now = finishersOf(name, raceNumbered(name, number)), at = now.indexOf(from.value);
  if (at < 0) say(text("finish.justMoved"), true);
  return at < 0 ? null : {to: Number(field.value), sails: now.slice(at), isAll: at === 0, coded: codes.checked ? coded : []};
}

// Moves finishers to another race.
export async function toOtherRace(name, number) {
  const shown = raceNumbered(name, number), found = await asked(name, number, shown, finishersOf(name, shown)), race = raceNumbered(name, number);
  if (!found || haveUnread(race, found)) return;
  const codes = linesOfCodes(race, number, found.to, [...found.sails, ...found.coded]);
  if (state(name).handicap) sheetToOther(name, number, race, found, codes);
  else lines(name, linesOfOtherRace(race, number, found.to, found.sails, codes));
}

// Whether a place is kept among the boats, which is said: nobody knows of which race she is.
function haveUnread(race, {sails, isAll}) {
  const first = race.order.findIndex(group => group.includes(sails[0]));
  const marks = race.unread.filter(gap => isAll || gap.after > first).map(gap => gap.mark);
  if (marks.length) say(text("scorer.stillUnread", {n: marks.length, marks}), true);
  return marks.length > 0;
}

const filled = values => [...new Set(values.filter(Boolean))];
const sheetOf = (name, number) => ask(`${addressOf("sheet", name)}/${number}`);

// Whether an answer of the office is a sheet; what is wrong is said.
function isTaken(answer) {
  if (answer.status !== 200) say(troubleWords(answer), true);
  return answer.status === 200;
}

// Moves rows of a sheet: their starts, laps, distances and elapsed times first, then a line for each finish. What is asked of
// these lines is asked before. What a boat with a code has there goes with her.
async function sheetToOther(name, number, race, {to, sails, coded, isAll}, codes) {
  const [from, other] = [await sheetOf(name, number), await sheetOf(name, to)], isMoved = sail => sails.includes(sail) || coded.includes(sail) && !isJurys(race, sail);
  if (!isTaken(from) || !isTaken(other) || hasTwice(to, isMoved, other.rows)) return;
  const moved = new Map(from.rows.filter(row => isMoved(row.sail) && (row.finish || row.elapsed)).map(row => [row.sail, row]));
  const starts = filled([...moved.values()].map(row => row.start)), there = filled(other.rows.map(row => row.start));
  const isOther = starts.length > 0 && there.length > 0 && starts.join() !== there.join();
  const whose = isOther ? await whoseStart(name, to, there, starts) : "own";
  if (!whose) return;
  // A start that all have is that of the whole race.
  const usual = whose === "there" ? there[0] : there.length || starts.length > 1 ? "" : starts[0] ?? "";
  const rows = entered(name, other.rows).map(row => {
    const own = moved.get(row.sail) ?? row, start = (whose === "own" ? own.start : row.start) || row.start || usual;
    return [row.sail, {...Object.fromEntries(other.columns.map(key => [key, own[key]])), start, elapsed: own.finish ? "" : own.elapsed}];
  });
  const given = {race: to, rows: Object.fromEntries(rows), tag: other.tag, overnight: other.overnight || from.overnight};
  const several = linesOfOtherSheet(race, number, to, sails, moved, codes), agreed = await agreedOfLines(name, several);
  if (!agreed || await isOtherNow(name, number, from) || !isTaken(await ask(addressOf("sheet", name), given))) return;
  if (await lines(name, several, {agreed}) && isAll) clearCourse(name, number);
}

// Whether somebody has changed a sheet while something was asked, which is said: nothing of what was shown is sent then
async function isOtherNow(name, number, shown) {
  const now = await sheetOf(name, number), isOther = isTaken(now) && now.tag !== shown.tag;
  if (isOther) say(text("finish.justMoved"), true);
  return isOther || now.status !== 200;
}

// Whether one of the boats is in the other sheet already, which is said
function hasTwice(to, isMoved, rows) {
  const row = rows.find(one => isMoved(one.sail) && (one.finish || one.elapsed || one.code));
  if (!row) return false;
  const values = {sail: row.sail, before: row.finish || row.elapsed || row.code, name: `times/race-${to}.csv`};
  say(remarkSentences([{kind: "sheet-has", values, text: ""}]).join("\n"), true);
  return true;
}

const whoseStart = (name, to, there, starts) => choose(withClass(text("scorer.whichStart", {number: to}), name), [], [
  {value: "there", label: text("scorer.startThere", {number: to, start: there.join(" ")})},
  {value: "own", label: text("scorer.startOwn", {start: starts.join(" ")})}, cancel()], "stack");

// A race of which nothing is left has no start, laps and distances any more: those were the other race's.
async function clearCourse(name, number) {
  const {status, rows, columns, tag, overnight} = await sheetOf(name, number);
  if (status !== 200 || rows.some(row => row.finish || row.elapsed || row.code)) return;
  const none = Object.fromEntries(columns.filter(key => key !== "elapsed").map(key => [key, ""]));
  await ask(addressOf("sheet", name), {race: number, tag, overnight, rows: Object.fromEntries(entered(name, rows).map(row => [row.sail, none]))});
}
