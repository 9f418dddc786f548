'use strict';
// A finish or a code that the scorer types into a race's sheet of times.
import {element} from "./elements.js";
import {text} from "./texts.js";
import {choose, say} from "./dialogs.js";
import {remarkSentences} from "./remark-words.js";
import {saidWords} from "./said-words.js";
import {CODES, spaced} from "./sails.js";
import {send} from "./desk.js";

const CLOCK = /^([01]\d|2[0-3]):[0-5]\d:[0-5]\d$/;

// A time of the clock with its seconds as it is typed: 150731, 31640, 15.07.31 or 3:16:40; "" if it is none.
export function clockOf(typed) {
  const [hour, ...rest] = /^\d{5,6}$/.test(typed) ? typed.padStart(6, "0").match(/../g) : typed.split(/[.,:\s]/);
  const clock = [hour.padStart(2, "0"), ...rest].join(":");
  return CLOCK.test(clock) ? clock : "";
}

// The lines that give a boat a finish or a code, correct what she has, or take it out
function linesFor(race, row, {finish, code}) {
  const lines = [], of = `${race} ${row.sail}`;
  if (code) return code === row.code ? [] : [`MARK ${of} ${code}`];
  if (row.code) lines.push(`CLEAR ${of}`);
  if (!finish && (row.finish || row.elapsed)) lines.push(`STRIKE ${of}`);
  if (finish && row.elapsed) lines.push(`STRIKE ${of}`);
  if (finish && finish !== row.finish) lines.push(["FINISH", of, finish, row.finish].filter(Boolean).join(" "));
  return lines;
}

// Asks for the finish or the code of a boat, again until it is one; null if nothing is to be done.
async function asked(row) {
  const given = {finish: row.finish, code: row.code};
  for (let wrong = null;;) {
    const finish = element("input", {id: "hand-finish", value: given.finish, autocomplete: "off", inputmode: "text", placeholder: "15:07:31"});
    const code = element("select", {id: "hand-code"}, ["", ...CODES].map(one =>
      element("option", {value: one, selected: one === given.code}, one || text("times.noCode"))));
    const done = await choose(`${spaced(row.sail)}: ${text("times.byHand")}`, [text("times.handMeans"),
      element("label", {class: "field"}, text("times.clock"), finish), element("label", {class: "field"}, text("times.code"), code), wrong],
    [{value: "", label: text("common.cancel")}, {value: "out", label: text("times.takeOut"), look: "bad"}, {value: "save", label: text("times.handSave"), look: "main"}]);
    if (!done) return null;
    if (done === "out") return {finish: "", code: ""};
    Object.assign(given, {finish: finish.value.trim(), code: code.value});
    const clock = clockOf(given.finish);
    if (given.code || clock || !given.finish) return {finish: clock, code: given.code};
    wrong = element("p", {class: "wrong", role: "alert"}, remarkSentences([wrongFinish(given.finish)]).join("\n"));
  }
}

const wrongFinish = written => ({kind: "finish-wrong", text: written, values: {written: written.slice(0, 20)}});

// Asks for the finish or the code of a boat, and sends what follows; whether anything was sent. Her row is as it was `at` a moment,
// when the journal had as many entries as were `seen`. A code is asked about if others have recorded her finish since.
export async function correctByHand(name, race, row, {seen, at}) {
  const given = await asked(row);
  if (!given) return false;
  const agreed = [];
  for (const line of linesFor(race, row, given)) {
    const sent = await send(name, line, {agreed, seen, ...line.startsWith("MARK ") ? {at} : {}});
    if (!sent || sent.outcome === "refused") break;
    say(saidWords(sent.said).slice(0, 3).join("\n") || text("times.saved"));
  }
  return true;
}
