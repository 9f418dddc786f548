'use strict';
// The finish page: a tap is a finisher. What it shows is the office's race with the taps of this device that are
// still on their way.
import {byId, fill, tellFault} from "./elements.js";
import {loadTexts, text} from "./texts.js";
import {areServed, comeIn, countUnsentBy, followNews, me, now, stateFollower} from "./office.js";
import {LATE, answer, askedItem, clock, fetchParts, forgetIfShown, isWaiting, keep, kept, page, queue, unnamedCount} from "./finish-state.js";
import {lastTapAt} from "./finish-taps.js";
import {drawGrid} from "./finish-grid.js";
import {drawList} from "./finish-list.js";
import {drawTop} from "./finish-top.js";
import {drawDock, drawKeys, listenToKeys} from "./finish-dock.js";

// Milliseconds: nobody is at the line just now if nothing was tapped for so long.
const CALM = 6000;
const CLOCK = 500, QUESTIONS = 400;

// Each part is drawn, whatever goes wrong in another.
function draw() {
  for (const part of [drawTop, drawList, drawGrid, drawDock]) {
    try { part(); } catch (fault) { tellFault(fault); }
  }
}

// The first race that doesn't count yet
function usualRace(state) {
  const numbers = Object.keys(state.races).map(Number);
  const open = numbers.filter(number => !state.races[number].counts);
  return open.length ? Math.min(...open) : Math.max(0, ...numbers) + 1;
}

function takeState(name, state) {
  const held = page.states[name];
  // While a class waits to be opened, the phone goes by what it has of it.
  if (state.trouble && !state.boats.length && held?.series === state.series) state = {...held, trouble: state.trouble, version: state.version};
  // Another series under this name has races of its own.
  if (held?.series && held.series !== state.series) forgetRaces(name);
  page.states[name] = state;
  keep(`state:${name}`, {...state, isOld: true});
  // A class that waits to be opened tells no boats, nor which of its races count.
  if (page.races[name] === undefined && page.classes.length === 1 && state.boats.length) {
    page.races[name] = usualRace(state);
    keep("races", page.races);
  }
  queue.items.forEach(forgetIfShown);
}

function forgetRaces(name) {
  delete page.races[name];
  delete page.rounded[name];
  page.undoable = page.undoable.filter(tap => tap.class !== name);
  for (const key of ["races", "rounded", "undoable"]) keep(key, page[key]);
}

function isNewState(name, version) {
  const held = page.states[name];
  return held?.version !== version || held.isOld === true;
}

const follow = stateFollower(isNewState, takeState, () => { draw(); fetchParts(); });

async function takeNews(versions) {
  queue.send();
  if (!areServed(page.classes, versions) && await comeIn() === 200) setClasses(me.classes);
  follow(versions);
}

function takeLink(link) {
  if (link === page.link) return;
  page.link = link;
  if (link === "live" && !me?.token) comeIn().then(draw);
  draw();
}

function setClasses(classes) {
  page.classes = classes;
  keep("classes", classes);
}

// What was kept on the device, until the office is heard.
function takeKept() {
  page.classes = kept("classes", []);
  for (const one of page.classes) {
    const state = kept(`state:${one.class}`, null);
    if (state) page.states[one.class] = state;
  }
}

function nameParts() {
  document.title = text("finish.title");
  byId("title").textContent = text("finish.title");
  byId("list").setAttribute("aria-label", text("finish.finished"));
  byId("grid").setAttribute("aria-label", text("finish.boatsToCome"));
  byId("acts").setAttribute("aria-label", text("finish.actions"));
  byId("races").setAttribute("aria-label", text("common.races"));
}

// A question comes over the boats once nobody has tapped for a while, or put one off; the list and the sign at the top
// open it sooner.
function askWhenCalm() {
  if (askedItem() && performance.now() - Math.max(lastTapAt(), page.putOffAt) > CALM) answer(askedItem());
}

function keepTime() {
  setInterval(() => fill(byId("clock"), [...new Set(page.classes.map(one => clock(one.class, now())))].join(" ")), CLOCK);
  setInterval(() => { if (queue.items.some(isWaiting)) draw(); }, LATE / 2);
  setInterval(askWhenCalm, QUESTIONS);
}

// The screen stays on, and the page opens without a connection, where the browser allows it: over HTTPS.
function stayAwake() {
  const hold = () => navigator.wakeLock?.request("screen").catch(() => {});
  hold();
  document.addEventListener("visibilitychange", () => document.hidden || hold());
  if (isSecureContext) navigator.serviceWorker?.register("/office/finish/worker.js", {scope: "/office/finish/"}).catch(() => {});
}

async function begin() {
  await loadTexts(true);
  nameParts();
  drawKeys();
  listenToKeys();
  countUnsentBy(() => queue.unsent.filter(item => item.state !== "sending").length + unnamedCount());
  page.redraw = draw;
  takeKept();
  draw();
  if (await comeIn() === 401 || !me) {
    location.replace("/office/in");
    return;
  }
  setClasses(me.classes ?? page.classes);
  followNews(takeNews, takeLink);
  queue.send();
  draw();
  keepTime();
  byId("link").onclick = () => { if (askedItem()) answer(askedItem()); };
  addEventListener("beforeunload", event => { if (queue.unsent.length && !page.isLoading) event.preventDefault(); });
  stayAwake();
}

begin();
