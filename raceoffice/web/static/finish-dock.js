'use strict';
// What the thumb reaches: undo, level, code, mark, the digits and the sail that wasn't read.
import {byId, element, fill} from "./elements.js";
import {text} from "./texts.js";
import {isOpen} from "./dialogs.js";
import {short} from "./sails.js";
import {finishers, lastBoat} from "./race-view.js";
import {isTimed, lastTap, page, raceNow, sailing, setDigits, setMode, withPart} from "./finish-state.js";
import {buzz, tapUnread, undo} from "./finish-taps.js";
import {startGridAgain} from "./finish-grid.js";

export function drawDock() {
  const tap = lastTap(), level = lastFinisher(), timed = sailing().filter(one => isTimed(one.class));
  fill(byId("acts"),
    element("button", {type: "button", id: "undo", class: "undo", disabled: !tap, onclick: undo}, tap ? undoWords(tap.line) : text("finish.undo")),
    timed.length ? startButton(timed) : modeButton("level", !level?.sail, () => ({kind: "level", class: level.class, sail: level.sail})),
    modeButton("code", false, () => ({kind: "code"})),
    modeButton("round", false, () => ({kind: "round"})));
}

// The starts of the races by corrected time, once each has one
function startButton(timed) {
  const starts = timed.map(one => raceNow(one.class).start), isWhole = starts.every(Boolean), words = starts.join(" ").trim();
  return element("button", {type: "button", id: "start", class: isWhole ? "set" : "main", "aria-label": `${text("finish.start")} ${words}`,
    onclick: () => withPart("start", ({askStart}) => askStart(timed))}, isWhole ? words : text("finish.start"));
}

// A button that says what the next tap means; pressed again, a tap is a finish again.
function modeButton(kind, isOff, modeWhenOn) {
  const isOn = page.mode.kind === kind;
  const press = () => {
    page.digits = kind === "code" ? "" : page.digits;
    if (kind === "round") startGridAgain();
    setMode(isOn ? {kind: "finish"} : modeWhenOn());
  };
  return element("button", {type: "button", id: kind, class: isOn ? "on" : "", "aria-pressed": String(isOn), disabled: isOff, onclick: press},
    text(`finish.${kind}`));
}

function undoWords(line) {
  const [command, , sail, code] = line.split(" "), what = sail ? short(sail) : "";
  if (command === "?" || sail === "NONE") return text("finish.undoWhat", {what: command});
  return text("finish.undoWhat", {what: ["MARK", "PENALTY"].includes(command) ? `${what} ${code}` : what});
}

// The last finisher of all classes; without a sail if that wasn't read: nobody can be level with her. One without a moment
// finished no earlier than those ahead of her.
function lastFinisher() {
  const found = sailing().filter(one => !isTimed(one.class)).map(one => {
    const race = raceNow(one.class), rows = finishers(race);
    return {class: one.class, sail: rows.at(-1)?.sail && lastBoat(race), at: Math.max(...rows.map(row => row.at ?? 0))};
  });
  return found.filter(one => one.at >= 0).sort((one, other) => other.at - one.at)[0];
}

function pressDigit(digit) {
  buzz(12);
  setDigits(page.digits + digit);
}

const dropDigit = () => setDigits(page.digits.slice(0, -1));

export function drawKeys() {
  const digit = one => element("button", {type: "button", onclick: () => pressDigit(one)}, one);
  byId("keys").setAttribute("aria-label", text("finish.digits"));
  fill(byId("keys"), [..."12345"].map(digit),
    element("button", {type: "button", id: "back", "aria-label": text("finish.deleteDigit"), onclick: dropDigit}, "⌫"),
    [..."67890"].map(digit),
    element("button", {type: "button", id: "unread", class: "unread", "aria-label": text("finish.sailNotRead"), onclick: tapUnread}, "?"));
}

// A keyboard does the same: digits, Backspace, Escape, Enter for the first boat, and ?.
export function listenToKeys() {
  addEventListener("keydown", event => {
    const isElsewhere = isOpen() || event.ctrlKey || event.metaKey || event.altKey || event.target.matches("input, select, textarea");
    if (isElsewhere) return;
    if (/^\d$/.test(event.key)) pressDigit(event.key);
    else if (event.key === "Backspace") dropDigit();
    else if (event.key === "Escape") { page.digits = ""; setMode({kind: "finish"}); }
    else if (event.key === "Enter" && page.digits && !event.target.matches("button")) document.querySelector("#grid .boat")?.click();
    else if (event.key === "?") tapUnread();
  });
}
