'use strict';
// Whom a decision would move, before it is sent.
import {element} from "./elements.js";
import {text} from "./texts.js";
import {called} from "./desk.js";
import {remarkSentences} from "./remark-words.js";
import {moveWords} from "./moves.js";

const box = (look, ...inside) => element("div", {class: `preview ${look}`, id: "preview", role: "status"}, inside);

function waiting(key) {
  return element("div", {class: "preview none", role: "status"}, element("h3", {}, text("jury.whoWouldMove")), element("p", {class: "soft"}, text(key)));
}

function heading(moves, shown) {
  if (moves.length) return text("jury.wouldChange", {n: moves.length});
  return text(shown.counts ? "jury.noChange" : "jury.doesntCountYet");
}

// The rows of a list of who would move
export const moveRows = moves => moves.map(moveRow);

function moveRow(move) {
  const up = move.was - move.rank, arrow = up ? `${up > 0 ? "▲" : "▼"} ${move.was} → ${move.rank}` : `${move.rank}`;
  return element("li", {class: up > 0 ? "up" : up ? "down" : "", "data-key": move.sail, "data-sail": move.sail},
    element("b", {"aria-hidden": "true"}, arrow), element("span", {}, moveWords(move, called(move.sail))));
}

// `shown` is what the office answered for `line`; null while it hasn't.
export function previewBox(line, shown, sail, actions) {
  if (!line) return waiting("jury.chooseFirst");
  if (!shown) return waiting("jury.asking");
  if (shown.refused || shown.why?.length) return box("bad", element("h3", {}, text("jury.notTaken")), element("p", {}, shown.why?.length ? remarkSentences(shown.why).join(" ") : shown.refused));
  const moves = shown.moves ?? [], own = moves.find(move => move.sail === sail);
  const ranked = moves.filter(move => move !== own && move.was !== move.rank), others = moves.length - ranked.length - (own ? 1 : 0);
  return box("", element("header", {}, element("h3", {}, heading(moves, shown)),
    element("button", {type: "button", onclick: actions.drop}, text("jury.notNow")),
    element("button", {type: "button", class: "main", id: "send", onclick: actions.send}, text("jury.sendDecision"))),
  own ? element("p", {class: "lead"}, element("b", {}, moveWords(own, called(own.sail)))) : null, shown.verdict ? element("p", {}, shown.verdict) : null,
  element("ul", {class: "moves"}, moveRows(ranked)),
  others ? element("p", {class: "soft"}, text("jury.keepTheirRank", {n: others})) : null,
  element("p", {class: "mono soft"}, text("jury.line"), " ", (shown.lines ?? []).join("; ").replaceAll("JURY ", "")));
}

