'use strict';
// What can be done about a row of the list: a finisher, or a place that is kept.
import {element} from "./elements.js";
import {text} from "./texts.js";
import {choose} from "./dialogs.js";
import {addTap, endMoment, isTimed, named, raceNow, setMode} from "./finish-state.js";
import {askCode, buzz} from "./finish-taps.js";
import {showWhy} from "./sheet-why.js";

// What can be done about a finisher of the list
export async function askFinisher(name, sail) {
  const places = [{value: "before", label: text("finish.insertAhead")}, {value: "level", label: text("finish.insertLevel")}];
  const {seen} = raceNow(name), done = await choose(named(name, sail), whyWaiting(name, sail), [...(isTimed(name) ? [] : places), {value: "code", label: text("finish.codeOrPenalty")}, {value: "strike", label: text("finish.strikeHer"), look: "bad"},
    {value: "", label: text("common.cancel")}], "stack");
  if (done === "strike") strike(name, sail, seen);
  else if (done === "code") askCode(name, sail);
  else if (done) setMode({kind: done, class: name, sail});
}

// Why her time is in the sheet alone, once that has come
function whyWaiting(name, sail) {
  const {waiting, sheet} = raceNow(name), part = element("p", {});
  if (waiting?.includes(sail)) showWhy(part, sheet, sail).catch(() => {});
  return part;
}

// What others have recorded since the window was opened is asked about.
function strike(name, sail, seen) {
  buzz(60);
  addTap(name, `STRIKE # ${sail}`, {seen});
}

// After a swipe or a long press
export async function askStrike(name, sail) {
  const {seen} = raceNow(name), done = await choose(text("finish.strikeQuestion", {sail: named(name, sail)}), text("finish.strikeMeans"),
    [{value: "", label: text("common.no")}, {value: "yes", label: text("finish.strike"), look: "bad"}]);
  if (done === "yes") strike(name, sail, seen);
}

// What can be done about a place that is kept
export async function askUnread(name, mark) {
  const done = await choose(text("finish.whoWas", {mark: named(name, mark)}), text(isTimed(name) ? "finish.timeIsKept" : "finish.placeIsKept"), [
    {value: "known", label: text("finish.tapHerNext"), look: "main"}, {value: "drop", label: text("finish.nobody"), look: "bad"},
    {value: "", label: text("finish.notYet")}], "stack");
  if (done === "known") setMode({kind: "known", class: name, mark});
  if (done === "drop" && isTimed(name)) endMoment(name, mark, "");
  else if (done === "drop") addTap(name, `${mark} # NONE`);
}
