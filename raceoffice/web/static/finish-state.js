'use strict';
// What the finish page knows: its classes, which race of each it records, and what somebody is about to tap.
import {comeIn, followClock, moment, newId, now, settle} from "./office.js";
import {text, timeOfDay} from "./texts.js";
import {isOpen, say} from "./dialogs.js";
import {spaced} from "./sails.js";
import {atTheLine, isIn, lineThatUndoes, withTaps} from "./race-view.js";
import {Queue} from "./queue.js";

// Milliseconds: a tap that is on its way for longer is shown as unsent; what was answered so long ago isn't shown
// from this device any more.
export const LATE = 1200;
const STALE = 3600e3;
// How many taps can be undone
const UNDOABLE = 12;
const DAY = 864e5;
const MOMENT = "moment:", LOADED = "loaded";
// Milliseconds between two loads of itself
const RARELY = 6e5;

export function kept(key, usual) {
  try { return JSON.parse(localStorage.getItem(key)) ?? usual; } catch { return usual; }
}

export function keep(key, value) {
  try { localStorage.setItem(key, JSON.stringify(value)); } catch { /* no room: it is asked for again */ }
}

// `mode` is what the next tap on a boat means: {kind: finish, level, before, known, code or round}.
export const page = {
  classes: [], states: {}, races: kept("races", {}), rounded: kept("rounded", {}), undoable: kept("undoable", []),
  moments: keptMoments(),
  mode: {kind: "finish"}, digits: "", link: "away", putOffAt: 0, redraw: () => {}};

export const queue = new Queue(item => {
  forgetIfShown(item);
  // What is refused, or dropped, says of no moment whose it was.
  const isThere = queue.find(item.id);
  if (isThere ? item.state === "refused" : item.state !== "gone") undoMoment(item);
  // Nothing came of what is dropped, unless it waited for an answer.
  if (!isThere && item.state !== "gone" && !(item.isSent && isWaiting(item))) forgetUndoable(item);
  page.redraw();
});

followClock(() => {
  for (const item of queue.items.filter(settle)) queue.change(item, {});
  page.moments.filter(settle).forEach(keepMoment);
  for (const one of page.moments) if (!one.clock && now() - one.at > DAY) forgetMoment(one);
});

export const isWaiting = item => item.state === "unsent" || item.state === "sending";

// An item's state as it is shown: done, refused, asked, unsent, or on its way.
export function stateOf(item) {
  // By corrected time a finish may be in the sheet, and its line not be in the journal yet.
  if (item.state === "done" && item.answer === "NOTED" && isTimed(item.class)) return "noted";
  if (!isWaiting(item)) return item.state;
  return page.link !== "live" || now() - item.at > LATE ? "unsent" : "way";
}

// The line of an item as the race shows it: of an undo that the office works out, the one that it most likely is
export const shownLine = item => item.shown || item.line;

// A tap that was answered goes once the race that the office shows has it.
export function forgetIfShown(item) {
  if (item.state !== "done") return;
  const state = page.states[item.class];
  const isShown = state && (item.entry ? state.entries >= item.entry : state.version >= item.version);
  if (!isShown && now() - item.at < STALE) return;
  item.state = "gone";
  queue.drop(item);
}

// The race of a class that is being recorded, with the taps of this device, and how many entries this page has seen
export function raceNow(name) {
  const number = page.races[name];
  const items = queue.of(name).filter(item => !["refused", "gone"].includes(item.state) && isHere(item)).map(item => ({...item, line: shownLine(item)}));
  const race = page.states[name]?.races?.[number];
  const found = withTaps(isTimed(name) ? atTheLine(race) : race, items, stateOf);
  for (const one of momentsOf(name).filter(one => !one.by)) {
    // A finish that was typed has no moment.
    const next = found.order.findIndex(([sail]) => found.at[sail] > one.at);
    found.unread.push({...one, after: next < 0 ? found.order.length : next});
  }
  found.seen = page.states[name]?.entries ?? 0;
  return found;
}

const seriesOf = name => page.states[name]?.series;
// By corrected time this device keeps the moment of a sail that wasn't read. `by` is the tap that says who she was. Those
// of another series that had this name, and those of a race that was abandoned since, aren't shown, nor counted.
const isAbandoned = ({class: name, race, at}) => at <= (page.states[name]?.abandoned?.[race] ?? 0);
const isOfSeries = ({class: name, series}) => !series || !seriesOf(name) || series === seriesOf(name);
const isShown = one => isOfSeries(one) && !isAbandoned(one);
const allMomentsOf = name => page.moments.filter(one => one.class === name && one.race === page.races[name] && isOfSeries(one));
const momentsOf = name => allMomentsOf(name).filter(isShown);
// How many finishers this device keeps of whom nobody has said who they were
export const unnamedCount = () => page.moments.filter(one => !one.by && isShown(one)).length;

// Each has a key of its own: another tab keeps others. An older page had one for all.
function keptMoments() {
  kept("moments", []).forEach(one => keep(MOMENT + one.id, one));
  localStorage.removeItem("moments");
  const keys = Object.keys(localStorage).filter(key => key.startsWith(MOMENT));
  return keys.map(key => kept(key)).filter(one => one?.mark).sort((one, other) => one.at - other.at);
}

function keepMoment(one) {
  keep(MOMENT + one.id, one);
  page.redraw();
}

function forgetMoment({id}) {
  localStorage.removeItem(MOMENT + id);
  page.moments = page.moments.filter(one => one.id !== id);
}

addEventListener("storage", ({key, newValue}) => {
  if (!key?.startsWith(MOMENT)) return;
  page.moments = page.moments.filter(one => MOMENT + one.id !== key);
  const one = newValue && kept(key);
  if (one?.mark) page.moments.push(one);
  page.redraw();
});

export function addMoment(name) {
  const last = Math.max(0, ...allMomentsOf(name).map(({mark}) => Number(mark.slice(1))));
  const one = {id: newId(), class: name, series: seriesOf(name), race: page.races[name], mark: `?${last + 1}`, ...moment()};
  noteUndoable({id: one.id, class: name, line: `? ${one.race}`});
  page.moments.push(one);
  keepMoment(one);
}

// Whose a moment was, by a line; nobody's without one. If its race was abandoned meanwhile, the office asks.
export function endMoment(name, mark, line) {
  const found = allMomentsOf(name).findLast(one => one.mark === mark);
  found.by = line ? addTap(name, line, {at: found.at, clock: found.clock}).id : newId();
  if (!line) noteUndoable({id: found.by, class: name, line: `${mark} ${found.race} NONE`, isOwn: true});
  keepMoment(found);
}

// Takes back what a tap did to a moment; whether that was all. Of one that `isOwn` the office knows nothing.
export function undoMoment({id, isOwn = false}) {
  const count = page.moments.length;
  forgetMoment({id});
  for (const one of page.moments.filter(({by}) => by === id)) keepMoment(Object.assign(one, {by: ""}));
  page.redraw();
  return isOwn || page.moments.length < count;
}

// Whether a class is scored by corrected time: each tap has its time, and level or ahead are nothing there.
export function isTimed(name) {
  return page.states[name]?.handicap === true;
}

// A moment by the clock of a class; nothing if it isn't known
export const clock = (name, at) => timeOfDay(at, page.states[name]?.zone);

// The classes of which a race is being recorded
export const sailing = () => page.classes.filter(one => page.races[one.class]);

// A sail, with her class if there are several, since two may have one sail, or if it isn't served here any more
export function named(name, sail) {
  const found = page.classes.find(one => one.class === name);
  return found && page.classes.length === 1 ? spaced(sail) : `${spaced(sail)} ${found?.group ?? name}`;
}

// Whether a line is about the race of its class that is shown
export const isHere = item => Number(shownLine(item).split(" ")[1]) === page.races[item.class];

// The last tap that can be undone, of the races that are shown
export const lastTap = () => page.undoable.findLast(isHere);

export function boatNamed(name, sail) {
  const found = page.states[name]?.boats.find(boat => boat[0] === sail) ?? [sail, "", ""];
  return {sail, name: found[1], helm: found[2]};
}

// How many boats of a race neither have finished nor have a code
export function toComeCount(name) {
  const race = raceNow(name), boats = page.states[name]?.boats ?? [];
  return boats.filter(([sail]) => !isIn(race, sail) && !race.codes[sail]).length;
}

// Adds a tap: `line` has # in place of the race's number.
export function addTap(name, line, more = {}) {
  const race = raceNow(name), number = page.races[name];
  const item = queue.add({class: name, line: line.replace("#", number), seen: race.seen, series: seriesOf(name), ...more});
  if (!more.undoes && !line.startsWith("START")) {
    noteUndoable({id: item.id, class: name, line: item.line, back: lineThatUndoes(item.line, race)});
  }
  page.redraw();
  return item;
}

function noteUndoable(tap) {
  page.undoable = [...page.undoable, tap].slice(-UNDOABLE);
  keep("undoable", page.undoable);
}

export function forgetUndoable({id}) {
  page.undoable = page.undoable.filter(one => one.id !== id);
  keep("undoable", page.undoable);
}

export function setMode(mode) {
  page.mode = mode;
  page.redraw();
}

export function setDigits(digits) {
  page.digits = digits.slice(0, 6);
  page.redraw();
}

// The item that the office asks about: the first, or that of a boat
export function askedItem(name, sail) {
  return queue.items.find(item => item.state === "asked" && (!name || item.class === name && isHere(item) && item.line.split(" ")[2] === sail));
}

// Asks somebody what the office asks about an item, unless that was answered meanwhile.
export const answer = item => withPart("answers", ({ask}) => { if (item.state === "asked" && queue.items.includes(item)) ask(item); });

// What a first visit doesn't need. It is fetched once the page is live, and is there at sea.
const PARTS = {start: () => import("./finish-start.js"), answers: () => import("./finish-answers.js"), rows: () => import("./finish-rows.js")};

export const fetchParts = () => Object.values(PARTS).forEach(fetched => fetched().catch(() => {}));

// Gives a part to `use`, which opens a window, if no other is open by then; or says that it isn't there.
export async function withPart(name, use) {
  const part = await PARTS[name]().catch(async fault => {
    say(text("common.notReached"), true);
    // It came, and is of another version than this page.
    if (fault instanceof SyntaxError) await loadAgain();
  });
  if (part && !isOpen()) use(part);
}

// Loads the page again, if the device has kept all taps and the office answers.
async function loadAgain() {
  const isKept = !queue.isFull && page.moments.every(one => kept(MOMENT + one.id));
  const isRecent = Math.abs(Date.now() - sessionStorage.getItem(LOADED)) < RARELY;
  if (!isKept || isRecent || isOpen() || await comeIn() !== 200) return;
  sessionStorage.setItem(LOADED, Date.now());
  page.isLoading = true;
  location.reload();
}

// What is wrong, in a word or two for the sign at the top. The office of a class that this device neither records nor holds
// taps of may be away.
export function trouble() {
  if (queue.isFull) return text("finish.deviceFull");
  const isAway = ({class: name}) => page.states[name]?.trouble && (page.races[name] || queue.of(name).length);
  return page.classes.some(isAway) ? text("common.officeAway") : "";
}
