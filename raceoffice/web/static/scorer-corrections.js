'use strict';
// The scorer's corrections by pointing: what can be done about a boat of a class in a race.
import {element} from "./elements.js";
import {text} from "./texts.js";
import {now} from "./office.js";
import {choose, say} from "./dialogs.js";
import {CODES, PENALTIES, spaced} from "./sails.js";
import {called, heldIn, isIn, missingFrom, raceNumbered, send, state} from "./desk.js";
import {correctByHand} from "./finish-by-hand.js";
import {saidWords} from "./said-words.js";
import {findBoat} from "./boat-finder.js";
import {lines} from "./scorer-unfinished.js";
import {linesOfLevel, linesOfMove, linesOfSwap} from "./corrections.js";

const cancel = () => ({value: "", label: text("common.cancel")});

// The start that this page shows of a race that is given one
function startShown(name, words) {
  const number = /^\s*start\s+(\d+)/i.exec(words)?.[1];
  return number ? {was: state(name).races[number]?.sheet?.start ?? ""} : {};
}

// What came of a line: without what was shown before it was asked about, unless that is all
function outcomeOf(said) {
  const after = said.filter(one => one.kind !== "shown");
  return saidWords(after.length ? after : said);
}

// Sends a line, and says what came of it. One that was chosen in a window goes with the entries that were `seen` as that was
// opened: the office asks about what others have recorded since.
export async function line(name, words, more) {
  const done = await send(name, words, {...startShown(name, words), ...more});
  if (done && done.outcome !== "refused") say(outcomeOf(done.said).slice(0, 2).join("\n"));
  return done;
}

// Whether anything of a boat is in the order, or in the sheet of times
const hasFinished = (race, sail) => isIn(race, sail) || Boolean(race.sheet?.rows[sail]?.finish || race.sheet?.rows[sail]?.elapsed);

// Times make the order of a class by corrected time: no boat is put ahead of another, or level.
function placesOf(name, race, sail) {
  if (state(name).handicap) return [["time", "scorer.herTime"], ...(hasFinished(race, sail) ? [["strike", "scorer.strikeHer", "bad"]] : [])];
  const there = [["ahead", "finish.insertAhead"], ["level", "finish.insertLevel"], ["move", "scorer.moveHer"], ["swap", "scorer.swapHer"],
    ["strike", "scorer.strikeHer", "bad"]];
  const away = [["last", "scorer.finishedLast"], ["into", "scorer.finishedAhead"]];
  return isIn(race, sail) ? there : away;
}

function choicesOf(name, race, sail, held) {
  return [...placesOf(name, race, sail), ["code", "finish.codeOrPenalty"], ...(held.length ? [["clear", "scorer.clearHer", "bad"]] : [])]
    .map(([value, key, look]) => ({value, label: text(key), look}));
}

// What a window shows as it is opened: how many entries there are, the last boat of the order besides hers, and when that is. The
// office asks about what others have recorded since.
function asOpened(name, race, sail = "") {
  return {seen: state(name).entries, behind: finishersBut(race, sail).at(-1) ?? "", at: now()};
}

// Asks what is to be done about a boat, and does it.
export async function correct(name, number, sail) {
  const race = raceNumbered(name, number), held = heldIn(race, sail), opened = asOpened(name, race, sail), {seen} = opened;
  const done = await choose(text("scorer.boatInRace", {boat: called(sail, name), number}), held.length ? text("scorer.sheHolds", {held}) : "",
    [...choicesOf(name, race, sail, held), cancel()], "stack");
  const single = {strike: `STRIKE ${number} ${sail}`, clear: `CLEAR ${number} ${sail}`}[done];
  if (single) line(name, single, {seen});
  else if (done === "last") line(name, `FINISH ${number} ${sail}`, opened);
  else if (done === "time") typeTime(name, race, number, sail, opened);
  else if (done === "code") askCode(name, number, sail, opened);
  else if (done === "ahead" || done === "level") insertAt(name, race, number, sail, done, opened);
  else if (done === "into") putInto(name, race, number, sail, opened);
  else if (done === "move") moveTo(name, race, number, sail, opened);
  else if (done === "swap") swapWith(name, race, number, sail);
}

async function askCode(name, number, sail, {seen, at}) {
  const done = await choose(text("finish.whichCode", {sail: called(sail, name)}), [],
    [...[...CODES, ...PENALTIES].map(code => ({value: code, label: element("span", {}, code, element("small", {}, ` ${text(`code.${code}`)}`))})), cancel()]);
  if (done) line(name, `${PENALTIES.includes(done) ? "PENALTY" : "MARK"} ${number} ${sail} ${done}`, {seen, at});
}

// A boat as the sheet of times has her; an elapsed time only if that was given
function typeTime(name, race, number, sail, opened) {
  const {finish = "", elapsed = "", code = ""} = race.sheet?.rows[sail] ?? {};
  return correctByHand(name, number, {sail, finish, elapsed: finish ? "" : elapsed ?? "", code}, opened);
}

async function insertAt(name, race, number, sail, how, {seen, at}) {
  const title = text(how === "ahead" ? "scorer.justAheadOf" : "scorer.levelWith", {sail: spaced(sail)});
  const other = await findBoat(name, title, missingFrom(name, race));
  if (other) line(name, `${how === "ahead" ? "BEFORE" : "TIE"} ${number} ${other} ${sail}`, {seen, at});
}

const finishersBut = (race, sail) => race.order.flat().filter(other => other !== sail);

async function putInto(name, race, number, sail, {seen, at}) {
  const other = await findBoat(name, text("scorer.aheadOfWhom", {sail: spaced(sail)}), finishersBut(race, sail));
  if (other) line(name, `BEFORE ${number} ${sail} ${other}`, {seen, at});
}

async function moveTo(name, race, number, sail, {behind, at}) {
  const how = await choose(text("scorer.whereTo", {sail: spaced(sail)}), [], [{value: "ahead", label: text("scorer.aheadOfAnother")},
    {value: "level", label: text("scorer.levelWithAnother")}, {value: "last", label: text("scorer.afterAll")}, cancel()], "stack");
  if (!how) return;
  const other = how === "last" ? "" : await findBoat(name, text(how === "ahead" ? "scorer.aheadOfWhom" : "scorer.levelWithWhom", {sail: spaced(sail)}),
    finishersBut(race, sail));
  if (!other && how !== "last") return;
  lines(name, how === "level" ? linesOfLevel(number, sail, other) : linesOfMove(number, sail, other), {more: {behind, at}});
}

async function swapWith(name, race, number, sail) {
  const other = await findBoat(name, text("scorer.swapWith", {sail: spaced(sail)}), finishersBut(race, sail));
  if (!other) return;
  // Others may have been recorded while it was asked with whom.
  const asItIs = raceNumbered(name, number), needed = linesOfSwap(isIn(asItIs, sail) && isIn(asItIs, other) ? asItIs : race, number, sail, other);
  if (needed.length) lines(name, needed);
  else say(text("scorer.areLevel", {one: spaced(sail), other: spaced(other)}));
}

// A boat that finished after all others, or at a time that is asked for
export async function addFinisher(name, number) {
  const race = raceNumbered(name, number), opened = asOpened(name, race);
  if (state(name).handicap) {
    const finisher = await findBoat(name, text("scorer.addFinisher"), missingFrom(name, race).filter(sail => !hasFinished(race, sail)));
    if (finisher) typeTime(name, race, number, finisher, opened);
    return;
  }
  const sail = await findBoat(name, text("scorer.whoFinishedLast"), missingFrom(name, race), text("scorer.elsewhereHint"));
  if (sail) line(name, `FINISH ${number} ${sail}`, opened);
}

// A place that was kept: whose was it?
export async function resolve(name, number, mark) {
  const sail = await findBoat(name, text("finish.whoWas", {mark}), missingFrom(name, raceNumbered(name, number)), text("scorer.nobodyHint", {line: `${mark} ${number} none`}));
  if (sail) line(name, `${mark} ${number} ${sail}`);
}
