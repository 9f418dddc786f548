'use strict';
// What the office says beside an answer or a question, in the words of this page. It comes as a fixed word for what
// it says, with values; what has none is the same in every language, or in English.
import {hasText, ordinal, refusalOf, text} from "./texts.js";
import {moveWords} from "./moves.js";
import {shownValues} from "./questions.js";
import {valueWords} from "./remark-words.js";

const NUMBERED = ["entered", "taken-away", "plan"];
// The kinds of which some values change the words; each gives the rest of the key.
const VARIANTS = {
  "entered": values => values.listed ? "" : ".unlisted",
  "finished": values => values.tied ? ".tied" : "",
  "held": values => values.held.length ? "" : ".nothing",
  "changed": values => values.race ? ".race" : "",
  "digits": values => values.others.length ? ".others" : "",
  "race-missing": values => values.counts ? ".counts" : "",
};
// What is made of other texts
const MADE = {
  "refused": (values, words) => refusalOf(values.answer, words),
  "moved": values => moveWords({...values, net_before: values.before}),
};

function shown(what, values, remarks) {
  const found = shownValues(values);
  for (const [name, remark] of Object.entries(remarks)) found[name] = valueWords(name, remark);
  if ("since" in values) found.since = byWhom(values.since);
  if (NUMBERED.includes(what)) found.n = values.boats ?? (Array.isArray(values.lines) ? values.lines.length : values.lines);
  if (what === "finished") found.place = ordinal(values.place + values.unread);
  if (what === "race-unread") found.place = ordinal(values.place);
  if (what === "stopped") found.why = refusalOf(values.answer, values.answer);
  return found;
}

// When and by whom something was done: "11:20 Ann"; a time alone stays as it is.
export function byWhom(since) {
  const [time, ...name] = since.split(" ");
  return name.length ? text("common.byWhom", {time, name: name.join(" ")}) : since;
}

// One thing that was said
function wordsOfSaid({what, values, text: words, remarks = {}}) {
  if (what in MADE) return MADE[what](values, words);
  const key = `said.${what}${VARIANTS[what]?.(values) ?? ""}`;
  if (!what || !hasText(key)) return words.trim();
  const found = [text(key, shown(what, values, remarks))];
  if (values.unread) found.push(text("said.unreadAhead", {n: values.unread}));
  if ("entry" in values && "missing" in values) found.push(text("said.tally", values));
  return (values.entry && !("mark" in values) ? `OK ${values.entry}  ` : "") + found.join(" ");
}

// All that was said
export const saidWords = said => (said ?? []).map(wordsOfSaid).filter(Boolean);
