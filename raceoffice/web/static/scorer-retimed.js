'use strict';
// Races that count with the rating that a boat had before.
import {text} from "./texts.js";
import {choose} from "./dialogs.js";
import {state} from "./desk.js";
import {withClass} from "./sending.js";
import {line} from "./scorer-corrections.js";

// Asks whether a boat's times are sent again in the races that count, once she has another rating.
export async function sendTimesAgain(name, sail) {
  const isTimed = row => row && !row.code, races = Object.entries(state(name).races).filter(([, race]) => race.counts && isTimed(race.sheet?.rows[sail]))
    .map(([number]) => number);
  if (!races.length || await choose(text("common.isThatRight"), withClass(text("scorer.oldRating", {n: races.length, races}), name),
    [{value: "", label: text("common.no")}, {value: "yes", label: text("common.yes"), look: "main"}]) !== "yes") return;
  for (const number of races) await line(name, `TIMES ${number}`);
}
