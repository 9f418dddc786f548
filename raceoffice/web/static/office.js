'use strict';
// What a page asks of the office: values, who this device is, the office's clock, news, and what there is to show then.
import {text} from "./texts.js";

export const role = location.pathname.split("/")[2];
// Who this device is for the office: {role, name, token, classes, ..}
export let me = null;
// Whether the office has last answered that this device isn't let in any more
export let isOut = false;

// Milliseconds: how long an answer may take; how much slower than the quickest one an answer may be from which
// the clock is learnt; after how long without a sign of life a connection is taken for dead; and until a state is asked for
// again if nobody answered.
const PATIENCE = 8000, SLOWER = 50, SILENT = 12000, LOOK = 3000, AGAIN = 1000;
// Milliseconds by which two times may part that are the same, and by which what was learnt of the office's clock at two
// times may differ if nobody has set this device's one in between
const SET = 500, ALIKE = 1000, CLOCK = "clock";

let unsentCount = () => 0, unsentHeard = 0, learnt = () => {};

export function newId() {
  return [...crypto.getRandomValues(new Uint8Array(16))].map(byte => byte.toString(16).padStart(2, "0")).join("");
}

const isNear = (one, other, by) => Math.abs(one - other) < by;
// When this page began, by the device's clock as it is set now
const origin = () => Date.now() - performance.now();

// There are two clocks: the device's, which may be set at any time, and the time that passes in this page, which stops
// while the device sleeps. `ahead` is by how much the office's clock is ahead of the first one, and `zero` what it showed
// when the second one began, null if this page hasn't heard the office. `took` is how long the answer took from which
// `ahead` was learnt. `back` is by how much the first one was put back since, and `seen` its origin at the last look.
const PAGE = newId(), clock = {ahead: 0, took: Infinity, back: 0, ...keptClock(), zero: null, seen: origin()};

function keptClock() {
  try { return JSON.parse(localStorage.getItem(CLOCK)); } catch { return null; }
}

function keepClock() {
  const {ahead, took, back} = clock;
  try { localStorage.setItem(CLOCK, JSON.stringify({ahead, took, back})); } catch { /* no room */ }
}

// Sees whether the clock was put back. If it goes forward, it was set, or the device has slept: they look alike.
function lookAtClock() {
  const by = origin() - clock.seen;
  clock.seen += by;
  if (by > -SET) return;
  clock.back -= by;
  keepClock();
}

// Whether the office's clock is known: both clocks say the same of it.
export function isClockKnown() {
  lookAtClock();
  return clock.zero !== null && isNear(origin() + clock.ahead, clock.zero, SET);
}

// The time by the office's clock: taps of several devices are compared by it.
export function now() {
  return Date.now() + (isClockKnown() ? clock.ahead : clock.ahead + clock.back);
}

// This moment: `at` by the office's clock, and `clock` if that isn't sure.
export function moment() {
  const at = now(), {zero} = clock;
  return isClockKnown() ? {at} : {at, clock: {page: PAGE, origin: origin(), ahead: at - Date.now(), zero}};
}

// Settles a moment that isn't sure, once the office was heard after it; whether it did. `at` is right if the clock wasn't
// set before it, and `now` if it wasn't set after it; `before` and `after` are if the device didn't sleep there. What both
// clocks say is right. Otherwise `at` is, if the clock can't have been set. If nothing is sure, somebody is asked.
export function settle(one) {
  if (!one.clock || one.clock.others) return false;
  const {at, clock: {page, origin: began, ahead, zero}} = one, isHere = page === PAGE, passed = at - ahead - began;
  const now = at - ahead + clock.ahead, before = (zero ?? NaN) + passed, after = isHere ? clock.zero + passed : NaN;
  const isAwake = isHere && isNear(began, origin(), SET) || isNear(before, after, ALIKE);
  const isUnset = !clock.back && isNear(now, at, ALIKE) && at < Date.now() + clock.ahead + ALIKE;
  const sure = isAwake ? after : [at, now].find(time => isNear(time, before, ALIKE) || isNear(time, after, ALIKE)) ?? (isUnset && at);
  if (sure) Object.assign(one, {at: Math.round(sure), clock: undefined});
  else one.clock = {...one.clock, others: {now, before, after}};
  return true;
}

// Whether two moments that aren't sure go by one clock
export const isOneClock = (one, other) => one.page === other?.page && one.origin !== undefined && isNear(one.origin, other.origin, SET);

// Calls `done` whenever the office's clock was learnt.
export function followClock(done) {
  learnt = done;
}

// Says how the taps that wait on this device are counted: the office shows the scorer how many there are.
export function countUnsentBy(count) {
  unsentCount = count;
}

// Learns from an answer that was asked for at a moment of performance.now(), if the clock wasn't set meanwhile. A quick one
// is exact. So is one after which what is known can't be: one of both clocks was set.
function learnClock(officeTime, asked, began) {
  const took = performance.now() - asked, ahead = Math.round(officeTime + took / 2 - Date.now());
  lookAtClock();
  if (!officeTime || !isNear(began, origin(), SET)) return;
  const isSet = Math.abs(ahead - clock.ahead) > (took + clock.took) / 2 + SLOWER;
  if (isSet || took <= clock.took + SLOWER) Object.assign(clock, {ahead, took});
  clock.zero = origin() + clock.ahead;
  learnt();
  clock.back = 0;
  keepClock();
}

// Says how many taps wait, if the office has last heard of another number, and hears what time it is.
function tellUnsent() {
  if (unsentHeard !== unsentCount() || !isClockKnown()) ask("me");
}

function fieldsOf(body, unsent) {
  const fields = {"X-Unsent": String(unsent)};
  return body === undefined ? fields : {...fields, "Content-Type": "application/json", "X-Token": me?.token ?? ""};
}

// Whether the device has another token by now: it came again in another tab, or the page began without a connection.
async function isTokenOld(token) {
  return me !== null && await comeIn() === 200 && me.token !== token;
}

// What a page of somebody else's, as a hotel's, answers in place of the office counts as nothing: it isn't JSON of its form.
async function valuesOf(answer) {
  const values = await answer.json();
  if (values === null || typeof values !== "object" || !answer.ok && !("words" in values || "outcome" in values)) throw new Error("not the office");
  return values;
}

// Asks the office, and gives {status, ..values}. Status 0: nobody answered.
export async function ask(path, body, patience = PATIENCE) {
  lookAtClock();
  const asked = performance.now(), began = origin(), token = me?.token, stop = new AbortController(), unsent = unsentCount();
  const timer = setTimeout(() => stop.abort(), patience);
  try {
    const answer = await fetch(path.startsWith("/") ? path : `/office/${role}/${path}`, {
      method: body === undefined ? "GET" : "POST", headers: fieldsOf(body, unsent), signal: stop.signal, cache: "no-cache",
      body: body === undefined ? undefined : JSON.stringify(body)});
    const values = await valuesOf(answer);
    // What is only read needs no token.
    if (answer.status === 403 && body !== undefined && await isTokenOld(token)) return await ask(path, body, patience);
    isOut = [401, 403].includes(answer.status);
    unsentHeard = unsent;
    learnClock(values.now, asked, began);
    return Array.isArray(values) ? {list: values, status: answer.status} : {...values, status: answer.status};
  } catch {
    return {status: 0, words: text("common.notReached")};
  } finally {
    clearTimeout(timer);
  }
}

// Learns who this device is; without the office, what it was the last time. Gives the status.
export async function comeIn() {
  const kept = `me:${role}`, found = await ask("me");
  if (found.status === 200) {
    me = found;
    try { localStorage.setItem(kept, JSON.stringify({...found, token: ""})); } catch { /* no room */ }
  } else if (found.status === 401) {
    me = null;
  } else if (!me) {
    try { me = JSON.parse(localStorage.getItem(kept)); } catch { /* nothing kept */ }
  }
  return found.status;
}

// Whether news is about just these classes
export const areServed = (classes, versions) => classes?.map(one => one.class).sort().join("/") === Object.keys(versions).sort().join("/");

// News for as long as the page is open: `seen` gets the versions of all classes, `told` how the link is:
// live, away, or out if this device isn't let in any more.
export function followNews(seen, told) {
  let source = null, heard = 0;
  // A clock that was put back isn't waited for.
  const silence = () => Math.abs(Date.now() - heard);
  const alive = () => { heard = Date.now(); told("live"); };
  const failed = async () => {
    told("away");
    if (source.readyState === EventSource.CLOSED && await comeIn() === 401) told("out");
  };
  const open = () => {
    source?.close();
    source = new EventSource(`/office/${role}/live`);
    heard = Date.now();
    source.onmessage = event => { alive(); seen(JSON.parse(event.data)); };
    source.addEventListener("beat", () => { alive(); tellUnsent(); });
    source.onerror = failed;
  };
  const lookAgain = () => {
    // A connection may be dead without anybody having said so.
    if (silence() < SILENT && source.readyState !== EventSource.CLOSED) return;
    told("away");
    open();
  };
  open();
  setInterval(lookAgain, LOOK);
  addEventListener("online", open);
  document.addEventListener("visibilitychange", () => { if (!document.hidden && silence() > SILENT / 2) open(); });
}

// Gives a function for news, which has the versions of all classes. It asks for one state at a time, so that an
// older answer never comes after a newer one, and again until there is an answer. `isNeeded(name, version)` says
// whether a state is another than the one that is shown, `take(name, state)` takes it over, and `draw()` comes last.
export function stateFollower(isNeeded, take, draw) {
  let isAtWork = false, news = null;

  // Asks for all states that are needed; whether each was answered.
  async function askAll(versions) {
    let isWhole = true;
    for (const [name, version] of Object.entries(versions)) {
      if (!isNeeded(name, version)) continue;
      const state = await ask(`state/${encodeURIComponent(name)}`);
      if (state.status === 200) take(name, state);
      else isWhole = false;
    }
    return isWhole;
  }

  async function work() {
    if (isAtWork || !news) return;
    isAtWork = true;
    const versions = news;
    news = null;
    const isWhole = await askAll(versions);
    isAtWork = false;
    draw();
    if (!isWhole) {
      news ??= versions;
      setTimeout(work, AGAIN);
    } else {
      work();
    }
  }

  return versions => {
    news = versions;
    work();
  };
}
