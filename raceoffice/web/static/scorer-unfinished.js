'use strict';
// Corrections of several lines: the office has all of them before it does the first, and what is left of one that
// stopped half way is shown here until it is sent, or left.
import {element} from "./elements.js";
import {text} from "./texts.js";
import {ask, newId, now} from "./office.js";
import {choose, say} from "./dialogs.js";
import {addressOf, keepLast, sendAsking, told, withClass} from "./sending.js";
import {redraw, state} from "./desk.js";

const mono = lines => element("p", {class: "mono"}, lines.join("\n"));

// Has the office do a correction, and asks what it asks; what came of it, null if nothing was sent.
const sendWhole = (name, id, lines, more = {}) => sendAsking("correct", name, {id, lines, at: now(), ...more});

const leave = (name, id) => ask(addressOf("correct", name), {id, lines: [], leave: true});

// Asks what the office asks of a correction, of which nothing is sent; what was agreed to, null if something wasn't.
export async function agreedOfLines(name, several) {
  return (await sendWhole(name, newId(), several, {ask: true}))?.agreed ?? null;
}

// Sends the lines of one correction, with what `more` its window has shown. Whether all were taken; if not, it is said which are
// left, and why.
export async function lines(name, several, {id = newId(), agreed = [], more = {}} = {}) {
  const came = several.length ? await sendWhole(name, id, several, {agreed, ...more}) : null;
  if (!came) return false;
  const {outcome, done, left} = came;
  keepLast(name, {id: "", line: ""});
  redraw();
  if (outcome === "taken") {
    say(text("scorer.linesSent", {n: done.length}));
    return true;
  }
  if (outcome === "refused") told(done.at(-1), done.at(-1).said);
  if (outcome === "left" || done.length > 1) await sayLeft(name, outcome, done.length, left);
  if (outcome === "refused") leave(name, id);
  return false;
}

function sayLeft(name, outcome, sent, left) {
  return choose(withClass(text(sent ? "scorer.stopped" : "common.notSent"), name), [text(outcome === "left" ? "scorer.leftUnsent" : "scorer.notSent"), mono(left)],
    [{value: "ok", label: text("finish.understood"), look: "main"}]);
}

// What is left of corrections that stopped half way
export function unfinishedPart(name) {
  return (state(name).unfinished ?? []).map(({id, lines: left}) => element("div", {class: "waits unfinished", "data-key": id},
    element("p", {}, element("strong", {}, `${text("scorer.stopped")}. `), text("scorer.notSent")), mono(left),
    element("div", {class: "acts"}, element("button", {type: "button", class: "main finish-it", onclick: () => lines(name, left, {id})}, text("scorer.sendRest")),
      element("button", {type: "button", class: "quiet bad leave-it", onclick: () => leave(name, id)}, text("scorer.leaveRest")))));
}
