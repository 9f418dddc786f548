'use strict';
// The office's questions in the words of this page. The office sends a question as its kind and its
// values, with English words for a kind that this page doesn't know.
import {hasText, list, text} from "./texts.js";
import {spaced} from "./sails.js";

// What somebody agrees to: the words may change.
export const agreedOf = question => ({kind: question.kind, values: question.values});

// The kinds of which some values change the words; each gives the rest of the key.
const VARIANTS = {
  "score-penalised": values => values.a53 ? ".a53" : "",
  "redress-unplaced": values => values.a53 ? ".a53" : "",
  "correction": values => values.declared ? `.${values.declared}` : "",
  "declared": values => values.declared === "final" ? "" : ".amended",
  "announce": values => values.state === "final" ? "" : `.${values.state}`,
  "take-over": values => values.since ? ".since" : "",
  "new-rules": values => values.isReopened ? ".reopen" : "",
  "after-since": values => values.others.length ? "" : ".changed",
  "abandon": values => values.lines.length ? "" : ".places",
  "others-recorded": values => (values.others.length ? "" : ".changed") + (values.ahead ? ".ahead" : "") + (values.untimed?.length ? ".untimed" : ""),
};
// Values that are sails, and those whose number chooses between one and several
const SAILS = ["sail", "sails", "near", "others", "ahead", "untimed"];
const COUNTED = ["marks", "sails", "others"];

const spacedAll = value => Array.isArray(value) ? value.map(spaced) : spaced(value);

export function shownValues(values) {
  const shown = {};
  for (const [name, value] of Object.entries(values)) shown[name] = SAILS.includes(name) ? spacedAll(value) : value;
  const counted = COUNTED.find(name => Array.isArray(values[name]));
  if (counted) shown.n = values[counted].length;
  if ("code" in values) shown.held = list([...values.code, ...values.penalties, ...values.redress.map(how => `RDG ${how}`)]);
  return shown;
}

// A question in words; what is said beside it comes first.
export function wordsOf(question) {
  const {kind, values} = question, key = `ask.${kind}${VARIANTS[kind]?.(values) ?? ""}`;
  if (!hasText(key)) return question.text;
  const first = values.counts ? `${text("ask.counts", values)} ` : "";
  return first + text(key, shownValues(values));
}
