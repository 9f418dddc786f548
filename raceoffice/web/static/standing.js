'use strict';
// The standing, and who moved by the last change.
import {element} from "./elements.js";
import {points, text, timeOfDay} from "./texts.js";
import {boatOf, called, state} from "./desk.js";
import {moveWords} from "./moves.js";
import {kindOf, spaced} from "./sails.js";

// So many moves are told in words
const TOLD = 12;

export function standingTable(rows, races, moves = []) {
  const moved = new Map(moves.map(move => [move.sail, move]));
  const heads = [text("desk.rank"), text("common.sail"), text("common.name"), text("desk.net"), ...races.map(number => text("desk.raceShort", {number}))];
  const looks = ["rank", "sail", "name", "net", ...races.map(() => "r")];
  return element("div", {class: "wide", tabindex: "0", role: "region", "aria-label": text("desk.standing")}, element("table", {class: "standing", "aria-label": text("desk.standing")},
    element("thead", {}, element("tr", {}, heads.map((head, at) => element("th", {class: looks[at], scope: "col"}, head)))),
    element("tbody", {}, rows.map(row => standingRow(row, moved.get(row.sail))))));
}

function standingRow(row, move) {
  const boat = boatOf(row.sail), up = move ? move.was - move.rank : 0;
  return element("tr", {class: move ? "moved" : "", "data-key": row.sail, "data-sail": row.sail},
    element("td", {class: "rank"}, `${row.rank}${row.shared ? "=" : ""} `, up ? arrow(up) : element("span", {class: "move"})),
    element("th", {class: "sail", scope: "row"}, spaced(row.sail)), element("td", {class: "name"}, boat?.[2] || boat?.[1] || ""),
    element("td", {class: "net"}, points(row.net)), row.scores.map(scoreCell));
}

function arrow(up) {
  const label = text(up > 0 ? "desk.placesUp" : "desk.placesDown", {n: Math.abs(up)});
  return element("span", {class: `move ${up > 0 ? "up" : "down"}`, role: "img", "aria-label": label}, `${up > 0 ? "▲" : "▼"}${Math.abs(up)}`);
}

// A score: an excluded one is struck through
function scoreCell([score, code, isExcluded]) {
  return element("td", {class: "r"}, element(isExcluded ? "del" : "span", {}, points(score)),
    code ? element("small", {class: kindOf(code)}, code) : null);
}

// What the last change moved
export function lastChange() {
  const last = state()?.last;
  if (!last?.moves?.length) return null;
  const more = last.moves.length - TOLD;
  return element("div", {class: "changed", id: "changed", role: "status"},
    element("b", {}, `${timeOfDay(last.at, state().zone)}  ${last.line}`), element("span", {class: "soft"}, `  ${text(`role.${last.role}`)}`),
    element("ul", {}, last.moves.slice(0, TOLD).map(move => element("li", {}, moveWords(move, called(move.sail)))),
      more > 0 ? element("li", {}, text("desk.andMore", {n: more})) : null));
}
