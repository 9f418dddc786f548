'use strict';
// What the scorer declares of the results, the results as files and on paper, and the journal with its copies.
import {byId, element} from "./elements.js";
import {byClock, language, list, text, timeOfDay} from "./texts.js";
import {ask, me, newId} from "./office.js";
import {here, state} from "./desk.js";
import {addressOf, withClass} from "./sending.js";
import {choose, say} from "./dialogs.js";
import {agreedOf, wordsOf} from "./questions.js";
import {remarkSentences, troubleWords, valueWords} from "./remark-words.js";
import {verdictWords} from "./jury-kept.js";
import {spaced} from "./sails.js";

const STATES = ["provisional", "final", "amended"];
const FILES = ["html", "csv", "semicolons", "json", "text"];
// Milliseconds that a declaration may take, how often it is sent again, and the pause before that
const DECLARING = 20000, TRIES = 6, PAUSE = 700;
// Milliseconds between two looks at a window that is to be printed
const LOADING = 100;
const LONGEST = 200;

// What the office last said of the results, of which class and version that was asked, and whether somebody is
// just declaring
const known = {found: null, asked: "", isDeclaring: false};

const entries = count => text("results.entries", {n: count});

// A moment by the clock of the series
function moment(milliseconds) {
  const zone = state()?.zone;
  return zone ? `${byClock(milliseconds, zone).toLocaleDateString(language, {dateStyle: "long", timeZone: "UTC"})}, ${timeOfDay(milliseconds, zone)}` : "";
}

// Asks how the results stand, and has it drawn.
export async function lookAtResults(draw) {
  const name = here;
  if (!name) return;
  const found = await ask(addressOf("results", name));
  if (found.status !== 200 || name !== here) return;
  known.found = {...found, class: name};
  draw();
}

// What is open

function pointWords({kind, values, text: english, remarks = {}}) {
  switch (kind) {
    case "rules-waiting":
      return text("results.rulesWaiting", {what: list(values.keys.map(key => text(`settings.key.${key}`)))});
    case "boats-unnamed":
      return text("results.boatsUnnamed", {n: values.sails.length, sails: values.sails.map(spaced)});
    case "race-unscored":
      return text("results.raceUnscored", {race: values.race, held: list(recordedOf(values))});
    case "finishers-unknown":
      return text("results.finishersUnknown", {n: values.marks.length,
        marks: values.marks.map((mark, at) => text("results.markInRace", {mark, race: values.races[at]}))});
    case "taps-unsent":
      return text("results.tapsUnsent", values);
    case "sheet-unsent":
      return text("results.sheetUnsent", {race: values.race, sails: values.sails.map(spaced)});
    case "sheet-unread":
      return text("results.sheetUnread", {race: values.race, fault: remarks.fault ? valueWords("fault", remarks.fault) : values.fault});
    case "places-unread":
      return text("results.placesUnread", remarks.fault ? {fault: valueWords("fault", remarks.fault)} : values);
    case "decision-stale":
      return `${verdictWords({...values, why: remarks.why ? [remarks.why] : []})} ${remarks.why ? "" : text("jury.sendsLacking")}`.trim();
    case "decisions-unread":
      return remarks.fault ? remarkSentences([remarks.fault])[0] : english;
    default:
      return english;
  }
}

function recordedOf({finished, held}) {
  const coded = held.map(one => one.replace(/^\S+/, spaced));
  return finished || !coded.length ? [text("scorer.finishedCount", {n: finished}), ...coded] : coded;
}

const openList = points => element("ul", {class: "waits open-points"}, points.map(point => element("li", {}, pointWords(point))));

// Declaring

async function agreesTo(name, {question, open}) {
  const inside = [element("p", {}, withClass(wordsOf(question), name)), open.length ? element("h3", {}, text("results.stillOpen")) : null,
    open.length ? openList(open) : null];
  return await choose(text("common.isThatRight"), inside,
    [{value: "", label: text("common.no")}, {value: "yes", label: text("common.yes"), look: "main"}]) === "yes";
}

// Sends a declaration until there is an answer: the same again is no second one. Gives the answer, or null if
// somebody says no.
async function sent(name, declaration) {
  for (let tries = 0; ; tries++) {
    const done = await ask(addressOf("declare", name), declaration, DECLARING);
    if (done.status === 409) {
      if (!await agreesTo(name, done)) return null;
      declaration.agreed = [agreedOf(done.question)];
    } else if ([0, 429, 503].includes(done.status) && tries < TRIES) {
      await new Promise(goOn => setTimeout(goOn, PAUSE * (tries + 1)));
    } else {
      return done;
    }
  }
}

async function declare(name, to, draw) {
  const reason = byId("reason").value.trim();
  if (to === "amended" && !reason) {
    say(text("results.needReason"), true);
    byId("reason").focus();
    return;
  }
  if (known.isDeclaring) return;
  known.isDeclaring = true;
  const done = await sent(name, {id: newId(), state: to, reason, agreed: []});
  known.isDeclaring = false;
  if (done?.status === 200) {
    byId("reason").value = "";
    say(text("results.areDeclared"));
  } else if (done) {
    say(troubleWords(done), true);
  }
  lookAtResults(draw);
}

function standStep(found, draw) {
  const look = found.is_changed ? "bad" : found.state === "provisional" ? "wait" : "good";
  return element("section", {class: "step"},
    element("h2", {}, text("results.stand"), " ", element("span", {id: "stands", class: `chip ${look}`}, text(`results.state.${found.state}`))),
    found.since ? element("p", {class: "soft"}, text("results.since", {when: moment(found.since)})) : null,
    found.reason ? element("p", {}, found.reason) : null,
    found.is_changed ? element("p", {class: "wrong", id: "is-changed"}, text("results.isChanged")) : null,
    found.open.length ? [element("h3", {}, text("results.stillOpen")), openList(found.open)] : element("p", {class: "done"}, text("results.nothingOpen")),
    element("label", {class: "field"}, text("results.reason"), element("input", {id: "reason", maxlength: LONGEST, autocomplete: "off"})),
    element("div", {class: "acts"}, STATES.map(one => element("button", {type: "button", id: `declare-${one}`, class: one === "final" ? "main" : "",
      onclick: () => declare(found.class, one, draw)}, text(`results.declare.${one}`)))));
}

// Files and paper

// Opens the results in a window of their own, and has the browser print them there.
function printPage(address) {
  const shown = window.open(address);
  if (shown) printOnceThere(shown);
  else say(text("results.noWindow"), true);
}

// Not every browser says when another window has loaded its page.
function printOnceThere(shown) {
  if (shown.closed) return;
  const isThere = shown.location.href !== "about:blank" && shown.document.readyState === "complete";
  if (isThere) shown.print();
  else setTimeout(() => printOnceThere(shown), LOADING);
}

function fileRow(rest) {
  const at = form => `/office/scorer/export/${form}${rest}`;
  return element("div", {class: "acts files"}, element("button", {type: "button", class: "main", "data-print": rest || "all", onclick: () => printPage(at("page"))}, text("results.print")),
    FILES.map(form => element("a", {href: at(form), download: true}, text(`results.file.${form}`))));
}

function filesStep(found) {
  return element("section", {class: "step"}, element("h2", {}, text("results.files")),
    element("p", {class: "soft"}, text("results.filesAre", {n: found.journal.entries})), fileRow(`/${encodeURIComponent(here)}`),
    me.classes.length > 1 ? [element("h3", {}, text("results.allClasses")), fileRow("")] : null);
}

// The journal and its copies

const fact = (title, ...inside) => [element("dt", {}, title), element("dd", {}, ...inside)];
const wrong = words => words ? element("p", {class: "wrong"}, words) : null;
const wrongOf = remarks => remarks.length ? wrong(remarkSentences(remarks).join("\n")) : null;

function journalWords({journal, is_open: isOpen}) {
  if (journal.differs.length) return [`${entries(journal.entries)}. `, wrong(text("results.differs")), wrongOf(journal.differs)];
  return `${entries(journal.entries)}, ${text(isOpen ? "results.asKept" : "results.asLeft")}`;
}

function datedWords({count, fault, at, entries: held}) {
  const newest = count ? `, ${text("results.newest", {when: moment(at), entries: entries(held)})}` : "";
  return [text("results.copies", {n: count}), newest, wrongOf(fault)];
}

function secondWords(second) {
  if (!second) return wrong(text("results.noSecond"));
  const {path: folder, fault, is_same_disk: isSameDisk, at, entries: held} = second;
  return [element("span", {class: "mono"}, folder), at ? `: ${text("results.written", {when: moment(at), entries: entries(held)})}` : "",
    fault.length ? [wrong(text("results.noCopy")), wrongOf(fault)] : isSameDisk ? wrong(text("results.sameDisk")) : null];
}

// Makes the folder of a stick the second folder, or none ("").
async function chooseStick(name, folder, draw) {
  const done = await ask(addressOf("second", name), {path: folder});
  if (done.status !== 200) say(troubleWords(done), true);
  else say(folder ? text(done.copies.is_waiting ? "results.stickLater" : "results.stickNow", {folder}) : text("results.noStickNow"));
  lookAtResults(draw);
}

// The sticks that are in, of which one can be the second folder
function sticksPart(name, {sticks = [], chosen = "", is_waiting: isWaiting}, draw) {
  const button = (folder, ...inside) => element("button", {type: "button", "data-stick": folder, onclick: () => chooseStick(name, folder, draw)}, ...inside);
  const others = sticks.filter(stick => stick.path !== chosen);
  return element("div", {id: "sticks"}, isWaiting ? element("p", {class: "waits"}, text("results.stickWaits", {folder: chosen || "–"})) : null,
    element("p", {class: "soft"}, text(others.length ? "results.sticks" : "results.noStick")),
    element("div", {class: "acts"}, others.map(stick => button(stick.path, text("results.copyTo", {folder: stick.path}),
      stick.is_same_disk ? ` (${text("results.onThisDisk")})` : "")), chosen ? button("", text("results.copyNowhere")) : null));
}

function journalStep(found, draw) {
  return element("section", {class: "step"}, element("h2", {}, text("results.journal")), element("dl", {class: "facts"},
    fact(text("results.theJournal"), journalWords(found)), fact(text("results.dated"), datedWords(found.copies.dated)),
    fact(text("results.second"), secondWords(found.copies.second))), sticksPart(found.class, found.copies, draw));
}

export function resultsPage(draw) {
  const asked = `${here} ${state()?.version}`;
  if (known.asked !== asked) {
    known.asked = asked;
    lookAtResults(draw);
  }
  const found = known.found?.class === here ? known.found : null;
  return element("main", {class: "steps"}, found ? [standStep(found, draw), filesStep(found), journalStep(found, draw)] : null);
}
