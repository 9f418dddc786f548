'use strict';
// The decisions that are kept without a line of their own: what each comes to, its note, what can be done about it, and
// which aren't in the scores as they have to be.
import {element} from "./elements.js";
import {points, text} from "./texts.js";
import {spaced} from "./sails.js";
import {remarkSentences, remarkWords} from "./remark-words.js";

// What a decision comes to, and whether the scores have it
export function verdictWords({race, sail, kind, how, points: wanted, held, kept, why}) {
  const line = `${text("common.race")} ${race}, ${spaced(sail)}: ${[kind, how].filter(Boolean).join(" ")}`;
  if (why.length) return `${line}. ${text("jury.notInScores", {why: why.map(remarkWords).join("; ")})}`;
  if (kept) return `${line}. ${wanted ? text("jury.comesTo", {points: points(wanted)}) : text("jury.isDone")}`;
  const due = wanted ? text("jury.comesTo", {points: points(wanted)}) : text("jury.toBeSent");
  return `${line}. ${due} ${held ? text("jury.scoresHave", {points: points(held)}) : text("jury.scoresHaveNone")}`;
}

const isStale = one => !one.kept && one.kind;

// What the scores lack of the decisions, for a scorer, who can't send it
export function stalePart(decisions = []) {
  const stale = decisions.filter(isStale);
  return stale.length ? element("div", {class: "waits", id: "stale"}, stale.map(one => element("p", {}, verdictWords(one))),
    element("p", {}, text("jury.sendsLacking"))) : null;
}

// The same for the jury: the first that can be sent is put into the form, with whom that moves.
export function lackingPart(decisions, amend) {
  const stale = decisions.filter(isStale), first = stale.find(one => !one.why.length);
  return stale.length ? element("div", {class: "waits", id: "stale"}, element("p", {}, text("jury.outOfDate", {n: stale.length})),
    first ? element("button", {type: "button", id: "send-lacking", onclick: () => amend(first)}, text("jury.sendLacking")) : null) : null;
}

function rowOf(one, actions) {
  const button = (key, look, press) => element("button", {type: "button", class: `quiet ${look}`, onclick: press,
    "aria-label": `${text(key)}: ${one.row}`}, text(key));
  return element("li", {class: one.kept ? "" : "wrong", "data-key": one.row}, one.kind ? verdictWords(one) : remarkSentences(one.wrong).join("\n"),
    one.note ? element("span", {class: "soft note"}, one.note) : null,
    element("span", {class: "acts"}, one.kind ? button("jury.amend", "", () => actions.amend(one)) : null,
      one.row ? button("jury.takeOut", "bad", () => actions.takeOut(one)) : null));
}

export function keptPart(decisions, actions) {
  if (!decisions.length) return null;
  return [element("h3", {}, text("jury.file")), element("ul", {class: "kept"}, decisions.map(one => rowOf(one, actions)))];
}
