'use strict';
// The scoring rules of a series in words.
import {list, text} from "./texts.js";

// From how many races on one more score is excluded, as the settings have it
export const thresholdsOf = exclude => exclude === "none" ? [] : String(exclude).split(",").map(Number);

// The rules in one line, from {exclude, absent, scp, handicap}
export function rulesWords({exclude, absent, scp, handicap}) {
  const counts = thresholdsOf(exclude).map((races, at) => text(`rules.from.${at + 1}`, {races}));
  return [counts.length ? text("rules.excluded", {counts: list(counts)}) : text("rules.none"), text("rules.absent", {rule: `A5.${absent.slice(-1)}`}),
    text("rules.scp", {points: scp ? text("rules.points", {n: Number(scp)}) : "20%"}), `${text(handicap ? "new.byCorrectedTime" : "new.byOrder")}.`].join(" ");
}
