'use strict';
// The boats to come. Each keeps her place while somebody taps: none moves under a finger.
import {byId, element, fill} from "./elements.js";
import {ordinal, text} from "./texts.js";
import {say} from "./dialogs.js";
import {numberOf, parts, spaced} from "./sails.js";
import {isIn, placeOf} from "./race-view.js";
import {page, raceNow, sailing} from "./finish-state.js";
import {buzz, tapBoat} from "./finish-taps.js";

// Milliseconds: boats that have just moved take no tap, since another was meant; boats that have finished leave
// their places when nobody has tapped for so long.
const MOVED = 250, SETTLE = 3500;
// With so few boats left by digits, their buttons are large.
const FEW = 6;

// The boats in the order in which they keep their places; what was drawn last and before that, and when it changed.
let holding = [], drawn = [], drawnBefore = [], drawnAt = NaN, still = 0, settling = 0;

export function startGridAgain() {
  holding = [];
}

// Lets boats that have finished leave, and those that came back go to their places, once nobody taps any more.
export function settleSoon() {
  clearTimeout(settling);
  settling = setTimeout(() => { settling = 0; holding = []; drawGrid(); }, SETTLE);
}

const keyOf = boat => `${boat.class} ${boat.sail}`;

function boatsOf(one, place) {
  const race = raceNow(one.class), rounded = page.rounded[one.class] ?? [];
  return (page.states[one.class]?.boats ?? []).map(([sail, name, helm]) => ({class: one.class, group: one.group, place, sail, name, helm,
    race, isDone: isIn(race, sail), code: race.codes[sail], rounded: rounded.indexOf(sail)}));
}

// All boats of the races that are recorded: those that have rounded the last mark first, in that order, then by
// number.
function allBoats() {
  const isRounding = page.mode.kind === "round", first = boat => isRounding || boat.rounded < 0 ? Infinity : boat.rounded;
  const byRounding = (one, other) => first(one) === first(other) ? 0 : first(one) - first(other);
  return page.classes.flatMap((one, place) => page.races[one.class] ? boatsOf(one, place) : [])
    .sort((one, other) => byRounding(one, other) || numberOf(one.sail) - numberOf(other.sail) || (one.sail < other.sail ? -1 : 1));
}

// How well a boat's number fits the digits: the whole number first, then its end, its beginning, anything.
function fit(boat) {
  const {rest} = parts(boat.sail), {digits} = page;
  return [rest === digits, rest.endsWith(digits), rest.startsWith(digits), rest.includes(digits)].indexOf(true);
}

function boatsToShow(all) {
  const isForAll = page.mode.kind === "code" || page.mode.kind === "round";
  const toCome = boat => !boat.isDone && !boat.code && (page.mode.class ?? boat.class) === boat.class;
  const open = isForAll ? all : all.filter(toCome);
  if (page.digits) return open.filter(boat => fit(boat) >= 0).sort((one, other) => fit(one) - fit(other));
  if (page.mode.kind !== "finish") return open;
  return boatsInPlace(all, open);
}

function boatsInPlace(all, open) {
  holding.push(...open.map(keyOf).filter(key => !holding.includes(key)));
  const byKey = new Map(all.map(boat => [keyOf(boat), boat]));
  const found = holding.map(key => byKey.get(key)).filter(Boolean);
  if (!settling && found.map(keyOf).join() !== open.map(keyOf).join()) settleSoon();
  return found;
}

export function drawGrid() {
  const grid = byId("grid"), all = allBoats(), boats = boatsToShow(all), isFew = page.digits !== "" && boats.length <= FEW;
  notePlaces(boats.map(keyOf), grid.classList.contains("few") === isFew);
  grid.classList.toggle("few", isFew);
  fill(grid, boats.length ? boats.map(boatButton) : element("p", {}, noBoats(all)));
  byId("digits").hidden = !page.digits;
  fill(byId("digits"), element("span", {}, page.digits), element("small", {}, text("common.boats", {n: boats.length})));
  noteTop(Math.round(grid.getBoundingClientRect().top + scrollY));
}

// What comes and goes above the boats moves all of them.
function noteTop(top) {
  if (top === drawnAt) return;
  [drawnAt, drawnBefore] = [top, []];
  waitUntilStill();
}

function notePlaces(places, isSameGrid) {
  if (places.join() === drawn.join()) return;
  drawnBefore = isSameGrid ? drawn : [];
  drawn = places;
  waitUntilStill();
}

function waitUntilStill() {
  byId("grid").dataset.moving = "yes";
  clearTimeout(still);
  still = setTimeout(() => { delete byId("grid").dataset.moving; }, MOVED);
}

// Whether a boat has only just come to where she was tapped: then another was meant.
function isNewThere(key) {
  return "moving" in byId("grid").dataset && drawnBefore[drawn.indexOf(key)] !== key;
}

function noBoats(all) {
  if (page.digits) return text("finish.noBoatWith", {digits: page.digits});
  if (all.length) return text("finish.allIn");
  return text(sailing().length ? "finish.waitingForBoats" : "finish.chooseRaceAbove");
}

// Four letters of a class, from where it differs if others begin alike
function shortOf(group) {
  const alike = page.classes.filter(one => one.group.startsWith(group.slice(0, 4)));
  let at = 0;
  while (alike.length > 1 && at < group.length - 4 && alike.every(one => one.group[at] === group[at])) at++;
  return group.slice(at, at + 4);
}

function boatButton(boat) {
  const {letters, rest} = parts(boat.sail), state = boat.race.unsent[boat.sail], isRounding = page.mode.kind === "round";
  const isMarked = isRounding ? boat.rounded >= 0 : boat.isDone && page.mode.kind === "finish";
  const isLate = isMarked && (state === "unsent" || state === "asked"), end = lowerLine(boat, isMarked, isRounding);
  const group = page.classes.length > 1 ? shortOf(boat.group) : "";
  const look = [`class${boat.place}`, isMarked && "done", isLate && "unsent", boat.code && "coded",
    boat.rounded >= 0 && !boat.isDone && "next"].filter(Boolean).join(" ");
  return element("button", {type: "button", class: `boat ${look}`, "data-key": keyOf(boat), "data-sail": boat.sail, "data-class": boat.class,
    "aria-label": [spaced(boat.sail), group && boat.group, end.trim()].filter(Boolean).join(", "), onclick: () => press(boat)},
    element("small", {}, [rest ? letters : "", group].filter(Boolean).join("·") || " "),
    element("b", {class: (rest || letters).length > 4 ? "long" : ""}, rest || letters), element("i", {}, end));
}

// What stands below a boat's number: her place, her code, or her name
function lowerLine(boat, isMarked, isRounding) {
  if (isRounding && isMarked) return ordinal(boat.rounded + 1);
  if (boat.code) return boat.code;
  const place = isMarked && placeOf(boat.race, boat.sail);
  return place ? ordinal(place) : boat.name || boat.helm || " ";
}

function press(boat) {
  if (isNewThere(keyOf(boat))) {
    buzz([20, 60, 20]);
    say(text("finish.justMoved"), true, 2500);
    return;
  }
  tapBoat(boat.class, boat.sail);
  settleSoon();
}
