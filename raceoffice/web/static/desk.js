'use strict';
// What the scorer's and the jury's page share: their classes, what the office shows of each, and lines. What somebody does
// is about the class that was shown then, so it has that class by name to its end.
import {byId, element, fill} from "./elements.js";
import {languageField, loadTexts, text} from "./texts.js";
import {areServed, comeIn, followNews, me, stateFollower} from "./office.js";
import {sendLine} from "./sending.js";
import {spaced} from "./sails.js";

const states = {};
// The race that a scorer has chosen of each class
const chosenRaces = {};
// The class that is shown
export let here = "";
let drawing = () => {}, link = "away";

// What the office shows of a class: of the one on the page, if none is named
export const state = (name = here) => states[name];
export const boatOf = (sail, name = here) => state(name)?.boats.find(boat => boat[0] === sail);
export const redraw = () => drawing();

export async function send(name, line, more) {
  const done = await sendLine(name, line, state(name)?.entries ?? 0, more);
  redraw();
  return done;
}

// A boat by her sail and name
export function called(sail, name = here) {
  const boat = boatOf(sail, name);
  return [spaced(sail), boat?.[1] || boat?.[2]].filter(Boolean).join(" ");
}

export function emptyRace() {
  return {counts: false, order: [], codes: {}, penalties: {}, redress: {}, at: {}, by: {}, unread: [], times: {}};
}

export const raceNumbered = (name, number) => ({...emptyRace(), ...state(name)?.races[number]});

// The race of a class that a scorer looks at, on whatever part of the page: the one that was chosen, or the last that doesn't count
export function raceShown(name = here) {
  const races = state(name)?.races ?? {}, numbers = Object.keys(races).map(Number);
  return chosenRaces[name] ??= numbers.filter(one => !races[one].counts).at(-1) ?? Math.max(1, ...numbers);
}

export function chooseRace(number, name = here) {
  chosenRaces[name] = number;
}

// What a boat holds in a race: her code, penalties and redress
export function heldIn(race, sail) {
  return [race.codes[sail], ...(race.penalties[sail] ?? []), race.redress[sail] !== undefined ? "RDG" : ""].filter(Boolean);
}

export const isIn = (race, sail) => race.order.some(group => group.includes(sail));

// The boats of which a race has neither a place nor a code
export function missingFrom(name, race) {
  return state(name).boats.map(boat => boat[0]).filter(sail => !isIn(race, sail) && !race.codes[sail]);
}

function chooseClass(name) {
  here = name;
  sessionStorage.setItem("class", name);
  drawing();
}

export function drawClasses() {
  const classes = me && me.classes.length > 1 ? me.classes : [];
  fill(byId("classes"), classes.map(one => element("button", {type: "button", "data-key": one.class,
    "aria-current": one.class === here ? "true" : null, onclick: () => chooseClass(one.class)}, one.group)));
}

function drawLink() {
  const isAway = link !== "live" || state()?.trouble;
  byId("link").className = `link ${link === "out" ? "bad" : isAway ? "away" : ""}`;
  byId("link").dataset.state = link === "out" ? "out" : isAway ? "away" : "live";
  byId("link").textContent = linkWords();
}

function linkWords() {
  if (link === "out") return text("common.linkEnded");
  if (link !== "live") return text("common.offline");
  return state()?.trouble ? text("common.officeAway") : text("common.live");
}

const follow = stateFollower((name, version) => states[name]?.version !== version, (name, found) => { states[name] = found; },
  () => { drawLink(); drawing(); });

// A class that is served: this one if it is
const shownClass = name => (me?.classes.find(one => one.class === name) ?? me?.classes[0])?.class ?? "";

async function takeNews(versions) {
  if (!areServed(me?.classes, versions)) {
    await comeIn();
    here = shownClass(here);
  }
  follow(versions);
}

// Comes with this device's cookie, and keeps what is shown up to date.
export async function beginDesk(draw) {
  await loadTexts();
  drawing = draw;
  fill(byId("languages"), languageField());
  byId("classes").setAttribute("aria-label", text("desk.classes"));
  if (await comeIn() === 401) {
    location.replace("/office/in");
    return;
  }
  here = shownClass(sessionStorage.getItem("class"));
  draw();
  followNews(takeNews, told => { link = told; drawLink(); });
}
