'use strict';
// What a jury decides, and the line that each decision is.

import {JURY_CODES} from "./sails.js";

// A decision for which the program has a line: its first word, and what has to be said beside it.
export const LINES = {...Object.fromEntries(JURY_CODES.map(code => [code, {first: "MARK"}])), ALL: {first: "REDRESS"},
  PRIOR: {first: "REDRESS"}, POINTS: {first: "REDRESS", takes: "points"}, ZFP: {first: "PENALTY"}, SCP: {first: "PENALTY"}, CLEAR: {first: "CLEAR"}};
// Decisions whose points are worked out beside the program
export const OTHERS = {DPI: {takes: "penalty"}, PRP: {takes: "penalty", usual: "30%"}, T1: {takes: "penalty", usual: "30%"},
  SHARE: {takes: "penalty", kind: "SCP"}, TLE: {takes: "limit"}, NSC: {}, AVG: {takes: "races"}, DUTY: {takes: "races"}, REINSTATE: {}};

const REDRESS = ["ALL", "PRIOR", "POINTS"];

export const isOther = what => what in OTHERS;
// The decision of which decisions.txt has this kind
export const whatOf = kind => Object.keys(OTHERS).find(what => (OTHERS[what].kind ?? what) === kind);
export const takesOf = what => (LINES[what] ?? OTHERS[what])?.takes ?? "";
// Points as they are typed in this or another language: 1,5 is 1.5. Races are parted by commas.
const dotted = takes => takes.replace(/^(\d{1,3}),(\d)$/, "$1.$2");
export const usualOf = what => OTHERS[what]?.usual ?? "";

// What stands on the button of a decision: its code, or the key of a word
export function headOf(what) {
  if (REDRESS.includes(what)) return {key: "jury.redress"};
  return ["CLEAR", "REINSTATE", "SHARE"].includes(what) ? {key: `jury.head.${what}`} : {code: what};
}

// The line of a decision; "" while something is still to be said.
export function lineOf({race, sail, what, takes}) {
  if (!race || !sail || !what || (takesOf(what) && !takes)) return "";
  if (isOther(what)) return `race ${race} ${sail} ${OTHERS[what].kind ?? what} ${takesOf(what) === "races" ? takes : dotted(takes)}`.trim();
  if (what === "CLEAR") return `CLEAR ${race} ${sail}`;
  if (what !== "POINTS") return `${LINES[what].first} ${race} ${sail} ${what}`;
  // Whatever else is typed is one word: the office says what is wrong with it.
  return `REDRESS ${race} ${sail} ${dotted(takes).replace(/\s+/g, "_")}`;
}

// Whether an average as redress has no race to count: she keeps her own score then. One of the races before counts those alone,
// and none counts a race in which she has an average herself.
export function isWithoutRaces({race, sail, what}, races) {
  const isOfIt = number => what === "ALL" ? number !== race : number < race;
  const isLeft = ([number, {counts, redress}]) => counts && isOfIt(Number(number)) && !["ALL", "PRIOR"].includes(redress[sail]);
  return ["ALL", "PRIOR"].includes(what) && !Object.entries(races).some(isLeft);
}

// What can be reopened: {number, sail, code, how} for what the jury gave, and for penalties
export function heldDecisions(races) {
  const found = [];
  for (const [number, race] of Object.entries(races)) {
    for (const [sail, code] of Object.entries(race.codes)) if (JURY_CODES.includes(code)) found.push({number, sail, code});
    for (const [sail, how] of Object.entries(race.redress)) found.push({number, sail, code: "RDG", how});
    for (const [sail, codes] of Object.entries(race.penalties)) for (const code of codes) found.push({number, sail, code});
  }
  return found;
}
