'use strict';
// Undo on the scorer's page: the last line of a class that was taken from here is taken back, once somebody agrees.
import {element} from "./elements.js";
import {text} from "./texts.js";
import {choose, say} from "./dialogs.js";
import {lastLine, withClass} from "./sending.js";
import {line} from "./scorer-corrections.js";

// Lines that none takes back: the office says what to do instead.
const STAYING = ["ENTER", "START", "TIMES", "ABANDON"];
const stays = last => STAYING.includes(last.line.split(" ")[0]);
const words = last => text("finish.undoWhat", {what: last.line});

// Asks whether it is taken back, and has the office find the line that does; the answer, or null if nothing was sent. Of what
// stays nothing is asked.
export async function undoLast(name) {
  const last = lastLine(name);
  if (!last?.id) {
    say(text(last ? "scorer.undoSeveral" : "remark.undo-none"), true);
    return null;
  }
  const done = stays(last) ? "yes" : await choose(text("common.isThatRight"), withClass(words(last), name),
    [{value: "", label: text("common.no")}, {value: "yes", label: text("common.yes"), look: "main"}]);
  return done === "yes" ? line(name, "UNDO", {undoes: last.id}) : null;
}

export function undoButton(name) {
  const last = lastLine(name), isOffered = last?.id && !stays(last);
  return element("button", {type: "button", id: "undo", disabled: !isOffered, onclick: () => undoLast(name)}, isOffered ? words(last) : text("finish.undo"));
}
