'use strict';
// Sends lines of a page that is connected: the scorer's and the jury's.
import {element} from "./elements.js";
import {refusalOf, text} from "./texts.js";
import {ask, me, newId, now} from "./office.js";
import {choose, say} from "./dialogs.js";
import {agreedOf, wordsOf} from "./questions.js";
import {moveOf, remarkSentences, troubleWords} from "./remark-words.js";
import {byWhom, saidWords} from "./said-words.js";
import {rulesWords} from "./rules-words.js";

const TRIES = 6;
// Milliseconds until the same line is sent again
const PAUSE = 700;
const LONG = 9000;

// A question with its rules, and with what is said in it, in words
function inWords(question) {
  const rules = ([exclude, absent, scp, handicap]) => rulesWords({exclude, absent, scp, handicap: handicap === "yes"});
  const {before, now} = question.values, values = {...question.values};
  if (Array.isArray(now)) Object.assign(values, {before: rules(before), now: rules(now)});
  if (Array.isArray(values.since)) values.since = values.since.map(byWhom);
  for (const [name, remark] of Object.entries(question.remarks ?? {})) [values[name]] = remarkSentences([remark]);
  return {...question, values};
}

// A class by its name, if there are several; "" otherwise
function groupOf(name) {
  return me?.classes.length > 1 ? me.classes.find(one => one.class === name)?.group ?? "" : "";
}

// What is asked, with the class that it is about if there are several
export const withClass = (words, name) => [groupOf(name), words].filter(Boolean).join(": ");

// Whether something is said of a line: it is the line, with what it takes
const isOf = (said, line) => !said.what && `${said.text.trim()} `.startsWith(`${line} `);

// What is said of no line. How many lines there are is in the question.
const saidElse = (lines, said) => saidWords(said.filter(one => one.what !== "plan" && !lines.some(line => isOf(one, line))));

// Asks a question of the office about a class, with all that is said; "yes" if somebody agrees, and `no` if somebody presses No.
export function agrees(name, question, said = [], no = "") {
  const asked = inWords(question), {lines = [], moves = [], also = ""} = question.kind === "line-of-several" ? {} : asked.values;
  const shown = lines.map(line => said.find(one => isOf(one, line))?.text.trim() ?? line);
  const more = [also, ...moves.map(moveOf), ...saidElse(lines, said)].filter(Boolean).join("\n");
  return choose(text("common.isThatRight"), [withClass(wordsOf(asked), name), shown.length ? element("p", {class: "mono"}, shown.join("\n")) : null, more],
    [{value: no, label: text("common.no")}, {value: "yes", label: text("common.yes"), look: "main"}]);
}

// What is sent about a class: `what` says for what.
export const addressOf = (what, name) => `${what}/${encodeURIComponent(name)}`;

// Sends a request to an address about a class. What the office asks is asked here, and the same is sent again until there is
// an answer, whichever class the page has come to show. Gives the answer, with what was agreed to, or null if there is none.
export async function sendAsking(what, name, values, {patience, tries = TRIES} = {}) {
  const address = addressOf(what, name), given = {agreed: [], ...values};
  for (let left = tries; ;) {
    const said = await ask(address, given, patience);
    if (said.status === 200) return {...said, agreed: given.agreed};
    if (said.status === 409 && said.outcome !== "elsewhere") {
      if (await agrees(name, said.question, said.said) !== "yes") return null;
      given.agreed.push(agreedOf(said.question));
    } else if (!await isTriedAgain(said.status, left--)) {
      say(troubleWords(said), true);
      return null;
    }
  }
}

// Sends a line; the answer, or null if nothing was sent.
export async function sendLine(name, line, seen, more = {}) {
  const id = newId(), said = await sendAsking("line", name, {id, line, seen, at: now(), ...more});
  if (said && said.outcome !== "refused") keepLast(name, {id, line: said.line});
  return said && told(said, said.said);
}

// The last line of a class that was taken from this tab, `{id, line}`, also of a page that was loaded again. It has no id if
// that was a correction of several lines. Null if there is none.
export const lastLine = name => JSON.parse(sessionStorage.getItem(`last:${name}`));

// An undo that had nothing to take back leaves nothing that could be.
export function keepLast(name, last) {
  sessionStorage.setItem(`last:${name}`, JSON.stringify(last.line === "UNDO" ? null : last));
}

// Whether what wasn't answered is sent again: that is so for a while, after a pause.
async function isTriedAgain(status, left) {
  if (![0, 429, 503].includes(status) || !left) return false;
  await new Promise(goOn => setTimeout(goOn, PAUSE * (TRIES - left + 1)));
  return true;
}

// What came of the last line that was sent, with what was said; a refusal is shown. A decision may take no line.
export function told(last, said) {
  if (last?.outcome === "refused") say(refusalOf(last.answer, saidWords(said).join("\n")), true, LONG);
  return {...last, said};
}
