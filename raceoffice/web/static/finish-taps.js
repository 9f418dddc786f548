'use strict';
// What a tap does: a finisher, a place kept for a sail that wasn't read, a code, a strike, undo.
import {element} from "./elements.js";
import {text} from "./texts.js";
import {moment} from "./office.js";
import {choose, dialogOf, say} from "./dialogs.js";
import {CODES, PENALTIES} from "./sails.js";
import {heldBy, isIn, lastBoat} from "./race-view.js";
import {addMoment, addTap, endMoment, forgetUndoable, isTimed, keep, lastTap, named, page, queue, raceNow, sailing, setMode, undoMoment} from "./finish-state.js";

// Milliseconds: how long a finger may bounce on one boat
const BOUNCE = 400;
const last = {at: -Infinity, what: ""};

// Android shakes the device for a tap; iPhones don't let a page do that.
export const buzz = pattern => navigator.vibrate?.(pattern);

// When somebody last tapped, by performance.now()
export const lastTapAt = () => last.at;

// Whether a tap is none: the second of a bouncing finger.
function isBounce(what) {
  const now = performance.now();
  if (what === last.what && now - last.at < BOUNCE) return true;
  last.at = now;
  last.what = what;
  return false;
}

// A tap on a boat of the grid
export function tapBoat(name, sail) {
  if (isBounce(`${name} ${sail}`)) return;
  if (page.mode.kind === "code") askCode(name, sail);
  else if (page.mode.kind === "round") flipRounded(name, sail);
  else if (isIn(raceNow(name), sail)) {
    buzz([20, 60, 20]);
    say(text("finish.hasFinished", {sail: named(name, sail)}));
  } else finish(name, sail);
}

function finish(name, sail) {
  const {mode} = page, race = raceNow(name);
  // A mode is about one class, whose boats alone are shown.
  if ((mode.class ?? name) !== name) return;
  buzz(35);
  page.mode = {kind: "finish"};
  page.digits = "";
  if (mode.kind === "level") addTap(name, `TIE # ${sail} ${mode.sail}`);
  else if (mode.kind === "before") addTap(name, `BEFORE # ${sail} ${mode.sail}`);
  else if (mode.kind === "known" && isTimed(name)) endMoment(name, mode.mark, `FINISH # ${sail}`);
  else if (mode.kind === "known") addTap(name, `${mode.mark} # ${sail}`);
  else addTap(name, `FINISH # ${sail}`, {behind: lastBoat(race)});
}

// The order in which boats rounded the last mark; it stays on this device.
function flipRounded(name, sail) {
  const order = page.rounded[name] ?? [];
  page.rounded[name] = order.includes(sail) ? order.filter(other => other !== sail) : [...order, sail];
  keep("rounded", page.rounded);
  buzz(20);
  page.redraw();
}

// A finisher whose sail wasn't read: her place is kept, or by corrected time her moment.
export function tapUnread() {
  const open = sailing(), name = open.length === 1 ? open[0].class : page.mode.class;
  if (!name) {
    say(open.length ? text("finish.whichClass", {off: text("finish.notSailing")}) : text("finish.chooseRace"));
    return;
  }
  if (isBounce("?")) return;
  buzz([35, 50, 35]);
  if (isTimed(name)) addMoment(name);
  else addTap(name, "? #", {behind: lastBoat(raceNow(name))});
}

// Takes back the last tap of this device.
export function undo() {
  const tap = lastTap();
  if (!tap) return;
  const item = queue.find(tap.id), isOpen = queue.unsent.includes(item);
  forgetUndoable(tap);
  buzz(60);
  if (undoMoment(tap)) {
    setMode({kind: "finish"});
    return;
  }
  if (item?.state === "refused" || isOpen && !item.isSent) queue.drop(item);
  else if (isOpen) undoSent(tap, item);
  else addTap(tap.class, tap.back || "UNDO", {undoes: tap.id});
}

// Takes back a tap that was sent and not answered: the office alone knows whether it has taken it.
function undoSent(tap, item) {
  // A sheet of times may be half written: such a tap is done whole before it is taken back.
  const isLeft = isTimed(tap.class) && item.state !== "asked";
  if (!isLeft) item.state = "gone";
  addTap(tap.class, "UNDO", {undoes: tap.id, shown: tap.back});
  if (!isLeft) queue.drop(item);
}

// A code or a penalty for a boat. What others have recorded since the window was opened is asked about: a time that waits in its
// sheet is no entry, so the office goes by when that was.
export async function askCode(name, sail) {
  const race = raceNow(name), held = heldBy(race, sail), opened = moment();
  setMode({kind: "finish"});
  page.digits = "";
  page.redraw();
  const box = element("div", {class: "codes"}, [...CODES.filter(code => code !== "DNC"), ...PENALTIES].map(code => codeButton(code, text(`code.${code}`))),
    held.length ? codeButton("CLEAR", held.join(" "), text("finish.clear")) : null);
  const code = await choose(text("finish.whichCode", {sail: named(name, sail)}), box, [{value: "", label: text("common.cancel")}]);
  if (!code) return;
  buzz(35);
  addTap(name, code === "CLEAR" ? `CLEAR # ${sail}` : `${PENALTIES.includes(code) ? "PENALTY" : "MARK"} # ${sail} ${code}`, {seen: race.seen, ...opened});
}

function codeButton(code, words, label = code) {
  return element("button", {type: "button", "data-value": code, class: code === "CLEAR" ? "bad" : "",
    onclick: event => dialogOf(event.target).end(code)}, label, element("small", {}, words));
}
