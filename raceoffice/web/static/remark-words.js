'use strict';
// What the office says of a list, of settings, of a decision or of what was asked for, in the words of this page. It
// comes as a kind with its values, and with English words for a kind that this page doesn't know.
import {hasText, refusalOf, text, troubleOf} from "./texts.js";
import {spaced} from "./sails.js";
import {rulesWords} from "./rules-words.js";
import {moveWords} from "./moves.js";

const sentence = words => /[.?!:]$/.test(words) ? words : `${words}.`;

// How a boat moves, in words, as the office has it: "GBR7 3 2 25.0 4.0"
export function moveOf(words) {
  const [sail, was, rank, before, net] = words.split(" ");
  return moveWords({sail, was: Number(was), rank: Number(rank), net_before: before, net});
}

// A value of one: another remark, which is a sentence if its English is, several values, a sail
export function valueWords(name, value) {
  if (Array.isArray(value)) return value.map(one => valueWords(name, one));
  if (value?.kind !== undefined) return /[.?]$/.test(value.text) ? sentence(remarkWords(value)) : remarkWords(value);
  return name === "sail" ? spaced(value) : value;
}

// The kinds whose words are made of other texts
const MADE = {
  "office-rules": values => rulesWords({...values, handicap: values.handicap === "yes"}),
  "office-move": values => moveOf(values.move),
  "sentences": values => valueWords("said", values.said).join(" "),
  "lines": values => valueWords("said", values.said).join("\n"),
};

export function remarkWords({kind, values, text: english}) {
  if (kind in MADE) return MADE[kind](values);
  if (!hasText(`remark.${kind}`)) return english;
  const shown = Object.fromEntries(Object.entries(values).map(([name, value]) => [name, valueWords(name, value)]));
  // What the program refuses has its number.
  if (values.answer) shown.why = refusalOf(values.answer, values.why);
  return text(`remark.${kind}`, shown);
}

export const remarkSentences = remarks => remarks.map(one => sentence(remarkWords(one)));

// What is wrong with an answer that isn't a result
export function troubleWords(answer) {
  if (hasText(`trouble.${answer.status}`) || !answer.said?.length) return troubleOf(answer);
  return remarkSentences(answer.said).join("\n");
}
