'use strict';
// How a boat moved, in words.
import {ordinal, points, text} from "./texts.js";
import {spaced} from "./sails.js";

// `boat` is what she is called.
export function moveWords(move, boat = spaced(move.sail)) {
  const values = {sail: boat, was: ordinal(move.was), rank: ordinal(move.rank), before: points(move.net_before ?? ""), net: points(move.net)};
  if (move.net_before === undefined || move.net_before === move.net) return text(move.was === move.rank ? "desk.staysAt" : "desk.movesTo", values);
  return text(move.was === move.rank ? "desk.staysWith" : "desk.movesWith", values);
}
