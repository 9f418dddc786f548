'use strict';
// The race beside the paper: its order, what is missing, and whether it counts.
import {byId, element} from "./elements.js";
import {ordinal, text, timeOfDay} from "./texts.js";
import {kindOf, spaced} from "./sails.js";
import {boatOf, called, heldIn, missingFrom, raceNumbered, state} from "./desk.js";
import {stalePart} from "./jury-kept.js";
import {remarkSentences} from "./remark-words.js";
import {duration, finishers, waitingIn} from "./race-view.js";
import {addFinisher, correct, line, resolve} from "./scorer-corrections.js";
import {finishersOf, toOtherRace} from "./scorer-other-race.js";
import {unfinishedPart} from "./scorer-unfinished.js";
import {correctNames, enterLate, takeOut, unlistedPart} from "./scorer-late.js";
import {undoButton, undoLast} from "./scorer-undo.js";

// What was compared with the paper on this page: "CLASS RACE SAIL", each with what was shown of her then
const ticked = new Map();
let drawAgain = () => {};

const codeTag = code => element("span", {class: `code ${kindOf(code)}`}, code);
const placed = race => race.order.flat().filter(sail => !race.codes[sail]);

const placeOf = ({place, isTied}) => `${place}${isTied ? "=" : ""}`;

function rowsOf(name, race, number) {
  const rows = finishers(race).filter(row => row.gap || row.place)
    .map(row => row.gap ? unreadRow(name, number, row) : boatRow(name, race, number, row.sail, placeOf(row), ordinal(row.place)));
  return [...rows, ...Object.entries(race.codes).map(([sail, code]) => boatRow(name, race, number, sail, codeTag(code), code))];
}

// What there is to compare with the paper of each boat: her place or, by corrected time, her finish, and what she holds; of the
// race as it was sailed last. Of a boat that was tapped again it is something else, whatever her place.
function toCompare(name, race, number) {
  const places = new Map(finishers(race).filter(row => row.place).map(row => [row.sail, placeOf(row)])), {handicap, abandoned} = state(name);
  return sail => JSON.stringify([handicap ? timeIn(name, race, sail) : places.get(sail), heldIn(race, sail), race.at[sail], abandoned?.[number]]);
}

// Forgets what was compared of boats of a race of which something else is shown now.
function forgetOthers(name, race, number) {
  const shown = toCompare(name, race, number);
  for (const [sail] of state(name).boats) {
    const key = `${name} ${number} ${sail}`;
    if (ticked.has(key) && ticked.get(key) !== shown(sail)) ticked.delete(key);
  }
}

function boatRow(name, race, number, sail, place, placeWords) {
  const key = `${name} ${number} ${sail}`, boat = boatOf(sail, name), isTicked = ticked.has(key);
  const held = heldIn(race, sail).filter(code => code !== race.codes[sail]);
  const flip = () => { if (!ticked.delete(key)) ticked.set(key, toCompare(name, race, number)(sail)); drawAgain(); };
  return element("tr", {class: isTicked ? "ticked" : "", "data-key": key, "data-sail": sail},
    element("td", {class: "tick"}, element("button", {type: "button", "aria-pressed": String(isTicked),
      "aria-label": text("scorer.asOnPaper", {boat: spaced(sail)}), onclick: flip}, "✓")),
    element("td", {class: "place", "aria-label": placeWords}, place),
    element("th", {class: "sail", scope: "row"}, element("button", {type: "button", class: "quiet", onclick: () => correct(name, number, sail)}, spaced(sail))),
    element("td", {class: "name"}, [boat?.[1], boat?.[2]].filter(Boolean).join(" · ")), element("td", {}, held.map(codeTag)),
    element("td", {class: "time", title: race.by[sail]}, timeIn(name, race, sail)));
}

// Her finish or elapsed time as the sheet of times has it, or the time of her tap
function timeIn(name, race, sail) {
  const {finish, elapsed} = race.sheet?.rows[sail] ?? {};
  return state(name).handicap ? finish || elapsed && duration(elapsed) : timeOfDay(race.at[sail], state(name).zone);
}

function unreadRow(name, number, {gap, place}) {
  return element("tr", {class: "unread", "data-key": `${number} ${gap.mark}`}, element("td", {}), element("td", {class: "place", "aria-label": ordinal(place)}, place),
    element("th", {class: "sail", scope: "row"}, element("button", {type: "button", class: "quiet", onclick: () => resolve(name, number, gap.mark)}, gap.mark)),
    element("td", {class: "name"}, text("finish.sailNotRead")), element("td", {}), element("td", {}, text("scorer.who")));
}

function orderTable(rows) {
  if (!rows.length) return element("p", {class: "soft"}, text("scorer.nothingYet"));
  const heads = [text("scorer.paper"), text("scorer.place"), text("common.sail"), text("common.name"), text("scorer.holds"), text("scorer.time")];
  return element("table", {class: "order", "aria-labelledby": "race-title"},
    element("thead", {}, element("tr", {}, heads.map((head, at) => element("th", {scope: "col"}, at < 2 ? element("span", {class: "unseen"}, head) : head)))),
    element("tbody", {}, rows));
}

function comparedLine(name, race, number) {
  const boats = placed(race), count = boats.filter(sail => ticked.has(`${name} ${number} ${sail}`)).length, isAll = count > 0 && count === boats.length;
  const words = text("scorer.compared", {n: count, of: boats.length});
  return element("p", {class: `paper ${isAll ? "all" : ""}`},
    element("progress", {max: boats.length || 1, value: count, "aria-label": words}), element("span", {}, words));
}

// What is still to be done before a race counts
function missingParts(race, away) {
  const unread = race.unread.map(gap => gap.mark), onlyPenalty = away.filter(sail => race.penalties[sail]?.length);
  return [unread.length ? text("scorer.stillUnread", {n: unread.length, marks: unread}) : "",
    onlyPenalty.length ? text("scorer.penaltyWithoutPlace", {n: onlyPenalty.length, sails: onlyPenalty.map(spaced)}) : ""].filter(Boolean)
    .map(words => element("p", {class: "waits"}, words));
}

// What keeps the sheet of times from being read, or all its times from the journal: the taps of this race wait meanwhile
function faultPart(race) {
  return race.sheet?.why.length ? element("p", {class: "wrong", id: "sheet-fault"}, remarkSentences(race.sheet.why).join("\n")) : null;
}

// Boats that aren't in the order, each with a button
function boatButtons(name, race, number, sails) {
  return element("div", {class: "missing"}, sails.map(sail => element("button", {type: "button", "data-key": sail, "data-sail": sail,
    onclick: () => correct(name, number, sail)}, called(sail, name), (race.penalties[sail] ?? []).map(code => [" ", codeTag(code)]))));
}

// The boats whose times or codes are in the sheet alone, and what keeps each of them there
function waitingPart(name, race, number, waiting) {
  const why = [...new Set(remarkSentences(waiting.flatMap(sail => race.sheet?.rows[sail]?.why ?? [])))];
  return waiting.length ? element("div", {class: "waits", id: "in-sheet"}, element("p", {}, text("said.sheet-waits", {fault: ""})),
    why.length ? element("p", {}, why.join("\n")) : null, boatButtons(name, race, number, waiting)) : null;
}

function awayPart(name, race, number, away) {
  const title = away.length ? text(race.counts ? "scorer.scoredDnc" : "scorer.notRecordedYet") : text("scorer.allRecorded");
  return [element("h3", {}, title), boatButtons(name, race, number, away)];
}

function typedForm(name) {
  const send = async event => {
    event.preventDefault();
    const words = byId("typed").value.trim();
    if (words && await (/^undo$/i.test(words) ? undoLast(name) : line(name, words))) byId("typed").value = "";
  };
  // What is typed stays while the race above it changes.
  return element("form", {class: "typed", "data-key": `typed ${name}`, onsubmit: send},
    element("input", {id: "typed", "aria-label": text("scorer.typeLine"), placeholder: text("scorer.typeLineAs", {line: "before 3 33 9"}), autocomplete: "off", spellcheck: "false"}),
    element("button", {}, text("common.send")));
}

// What the scorer does whichever race is shown: with the last line, and with entries
function entriesPart(name) {
  const button = (id, key, press, look = "") => element("button", {type: "button", id, class: look, onclick: () => press(name)}, text(key));
  return element("div", {class: "acts"}, undoButton(name), button("late", "scorer.lateEntry", enterLate), button("correct-names", "scorer.correctNames", correctNames),
    button("take-out", "scorer.takeOut", takeOut, "quiet bad"));
}

function actions(name, race, number, isEmpty) {
  const count = race.counts
    ? element("button", {type: "button", id: "unscore", onclick: () => line(name, `UNSCORE ${number}`)}, text("scorer.unscore"))
    : element("button", {type: "button", class: "main", id: "score", disabled: isEmpty, onclick: () => line(name, `SCORE ${number}`)}, text("scorer.score", {number}));
  return element("div", {class: "acts"}, count,
    element("button", {type: "button", id: "add", onclick: () => addFinisher(name, number)}, text("scorer.addFinisher")),
    element("button", {type: "button", id: "other-race", disabled: !finishersOf(name, race).length, onclick: () => toOtherRace(name, number)}, text("scorer.otherRaceShort")),
    element("span", {class: "grow"}),
    element("button", {type: "button", class: "quiet bad", id: "abandon", disabled: isEmpty && !race.sheet, onclick: () => line(name, `ABANDON ${number}`)}, text("scorer.abandon")));
}

export function racePane(name, number, draw) {
  drawAgain = draw;
  const race = raceNumbered(name, number), waiting = waitingIn(race);
  forgetOthers(name, race, number);
  const rows = rowsOf(name, race, number);
  const away = missingFrom(name, race).filter(sail => race.counts || !waiting.includes(sail));
  const counts = [text("scorer.finishedCount", {n: placed(race).length}), text("scorer.codedCount", {n: Object.keys(race.codes).length}),
    text(race.counts ? "scorer.dncCount" : "scorer.missingCount", {n: away.length}),
    race.sheet?.start ? `${text("finish.start")} ${race.sheet.start}` : ""].filter(Boolean).join(" · ");
  return element("section", {class: "pane", "aria-labelledby": "race-title"},
    element("header", {}, element("h2", {id: "race-title"}, `${text("common.race")} ${number} `),
      element("span", {class: `chip ${race.counts ? "good" : "wait"}`}, text(race.counts ? "scorer.counts" : "scorer.doesntCount")),
      element("span", {class: "soft"}, counts)),
    unfinishedPart(name), actions(name, race, number, !rows.length), rows.length ? comparedLine(name, race, number) : null, faultPart(race), waitingPart(name, race, number, waiting), missingParts(race, away),
    stalePart(state(name).decisions),
    orderTable(rows), awayPart(name, race, number, away), unlistedPart(name), typedForm(name), entriesPart(name));
}
