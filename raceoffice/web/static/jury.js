'use strict';
// The jury's page: a decision, whom it would move before it is sent, and what was decided.
import {byId, element, fill} from "./elements.js";
import {text} from "./texts.js";
import {ask, newId} from "./office.js";
import {say} from "./dialogs.js";
import {moveWords} from "./moves.js";
import {kindOf, spaced} from "./sails.js";
import {saidWords} from "./said-words.js";
import {addressOf, agrees, sendAsking, told} from "./sending.js";
import {agreedOf} from "./questions.js";
import {remarkSentences, troubleWords} from "./remark-words.js";
import {beginDesk, called, drawClasses, here, send, state} from "./desk.js";
import {findBoat} from "./boat-finder.js";
import {lastChange, standingTable} from "./standing.js";
import {LINES, OTHERS, headOf, heldDecisions, isOther, isWithoutRaces, lineOf, takesOf, usualOf, whatOf} from "./jury-decisions.js";
import {keptPart, lackingPart, verdictWords} from "./jury-kept.js";
import {previewBox} from "./jury-preview.js";

// Milliseconds: until a preview is asked for after a choice and after a letter, and for its answer
const SOON = 250, TYPED = 400, LONG = 30000;
// What is said of whom a line alone has moved
const OF_MOVES = ["no-race", "no-move", "changed", "mixed", "moved"];
// The most letters of a note
const NOTE = 200;

// `out` is the row of a decision that is to be taken out, and `back` what is to be taken back of a boat, as "race 1 GBR7 DSQ"
const EMPTY = {race: 0, sail: "", what: "", takes: "", note: "", out: "", back: ""};
// What is to be decided, and in which class
const form = {...EMPTY, class: ""};
let shown = null, asked = 0, timer = 0;
const decisions = () => state().decisions ?? [];

function askSoon(milliseconds) {
  shown = null;
  clearTimeout(timer);
  timer = setTimeout(preview, milliseconds);
}

function change(values) {
  Object.assign(form, {out: "", back: ""}, values);
  askSoon(SOON);
  draw();
}

const nothing = () => change({what: "", takes: "", note: ""});
const isKept = () => form.out !== "" || form.back !== "" || isOther(form.what);
// What is to be decided, as it is shown: the row that is taken out, what is taken back, or a line
const wanted = () => form.out || form.back || lineOf(form);
const given = () => ({line: wanted(), out: form.out !== "", reopen: form.back !== "", note: form.note});

// Whom the decision would move. The program scores the journal with the line, and keeps nothing of it.
async function preview() {
  const line = wanted(), mine = ++asked;
  if (!line) return;
  const found = await ask(addressOf(isKept() ? "ruling" : "preview", form.class), isKept() ? given() : {line}, LONG);
  if (mine !== asked) return;
  const refused = found.status === 200 ? found.refused && remarkSentences(found.refused).join(" ") : troubleWords(found);
  shown = found.status === 200 ? {...found, refused, line} : {refused, line};
  draw();
}

async function sendDecision() {
  const line = wanted(), name = form.class, {asked: questions = [], lines, tag, moves = []} = shown ?? {};
  if (shown?.line !== line) return;
  if (shown.entries !== state(name).entries) {
    say(text("jury.lookAgain"));
    preview();
    return;
  }
  const kept = isKept() && {...given(), lines, tag};
  for (const question of questions) if (await agrees(name, question) !== "yes") return;
  const agreed = questions.map(agreedOf), done = kept ? await decide(name, {...kept, agreed}, moves) : await send(name, line, {agreed});
  if (!done || done.outcome === "refused") return;
  say((done.words ?? saidWords(done.said)).slice(0, 3).join("\n") || text("jury.kept"));
  if (form.class === name && wanted() === line) nothing();
}

// A decision without a line of its own: it is kept if it still comes to what was shown. Gives what was said of its lines, with
// the words of them all, or null if it wasn't sent.
async function decide(name, kept, moves) {
  const came = await sendAsking("decide", name, {id: newId(), ...kept}, {patience: LONG});
  return came && {...told(came.done.at(-1), came.done.flatMap(one => one.said)), words: wordsOfAll(came.done, moves)};
}

// What is said of all lines of a decision: what is so after the last one, and whom they move together, as it was shown
function wordsOfAll(done, moves) {
  const last = done.at(-1)?.said.filter(one => !OF_MOVES.includes(one.what)) ?? [];
  return [...saidWords(last), ...moves.map(move => moveWords(move))];
}

async function chooseBoat() {
  const name = form.class, sail = await findBoat(name, text("jury.whichBoat"), state().boats.map(boat => boat[0]));
  if (sail && form.class === name) change({sail});
}

function decisionButton(what) {
  const head = headOf(what);
  return element("button", {type: "button", id: `what-${what}`, "aria-pressed": String(form.what === what),
    onclick: () => change({what, takes: usualOf(what)})}, head.code ?? text(head.key), element("small", {}, text(`jury.what.${what}`)));
}

function takesField() {
  const takes = takesOf(form.what);
  if (!takes) return null;
  const typed = event => { form.takes = event.target.value.trim(); askSoon(TYPED); };
  return element("label", {class: "field", "data-key": form.what}, text(`jury.takes.${takes}`),
    element("input", {id: "takes", value: form.takes, autocomplete: "off", oninput: typed}));
}

// The note of a hearing, which stands beside the decision in decisions.txt
function noteField() {
  if (!isOther(form.what)) return null;
  return element("label", {class: "field", "data-key": "note-field"}, text("jury.note"),
    element("input", {id: "note", value: form.note, maxlength: NOTE, autocomplete: "off", oninput: event => { form.note = event.target.value; }}));
}

function raceField(numbers) {
  const options = numbers.map(number => element("option", {value: number, selected: number === form.race},
    state().races[number].counts ? number : text("jury.openRace", {number})));
  return element("label", {class: "field"}, text("common.race"),
    element("select", {id: "race", onchange: event => change({race: Number(event.target.value)})}, options));
}

function decisionForm(numbers) {
  return element("form", {onsubmit: event => { event.preventDefault(); preview(); }},
    element("div", {class: "pair"}, raceField(numbers), element("div", {class: "field"}, element("span", {id: "boat-label"}, text("common.boat")),
      element("button", {type: "button", id: "boat", "aria-labelledby": "boat-label boat", onclick: chooseBoat}, form.sail ? called(form.sail) : text("new.choose")))),
    element("div", {class: "cards", role: "group", "aria-label": text("jury.decision")}, Object.keys(LINES).map(decisionButton)),
    element("details", {open: isOther(form.what)}, element("summary", {}, text("jury.others")),
      element("div", {class: "cards", role: "group", "aria-label": text("jury.others")}, Object.keys(OTHERS).map(decisionButton))),
    takesField(), noteField());
}

const amend = one => {
  change({race: one.race, sail: one.sail, what: whatOf(one.kind), takes: one.how, note: one.note});
  byId("takes")?.focus();
};
const takeOut = one => change({race: one.race ?? form.race, sail: one.sail ?? form.sail, what: "", takes: "", note: "", out: one.row});

// What was given is taken back, and nothing else of hers: of points that are a kept decision's, its row, too.
function reopen({number, sail, code}) {
  const kept = decisions().find(one => code === "RDG" && one.redress && one.race === Number(number) && one.sail === sail);
  if (kept) takeOut(kept);
  else change({race: Number(number), sail, what: "", takes: "", note: "", back: `race ${number} ${sail} ${code}`});
}

function heldRow(one) {
  const {number, sail, code, how} = one;
  return element("tr", {}, element("td", {}, `${text("common.race")} ${number}`), element("th", {scope: "row"}, spaced(sail)),
    element("td", {}, element("span", {class: `code ${kindOf(code)}`}, code), how ? ` ${how}` : ""),
    element("td", {}, element("button", {type: "button", class: "quiet", "aria-label": `${text("jury.reopenWhat", {sail: spaced(sail), number})}, ${code}`, "data-reopen": `${number} ${sail} ${code}`,
      onclick: () => reopen(one)}, text("jury.reopen"))));
}

function heldPart() {
  const held = heldDecisions(state().races);
  const rows = held.length ? held.map(heldRow) : element("tr", {}, element("td", {class: "soft"}, text("jury.nothingYet")));
  return [element("h3", {}, text("jury.heldSoFar")), element("table", {class: "held", "aria-label": text("jury.heldSoFar")}, element("tbody", {}, rows)), keptPart(decisions(), {amend, takeOut})];
}

function standingPart() {
  const isPreview = Boolean(shown?.moves), rows = shown?.rows ?? state().standing.rows;
  return [element("header", {}, element("h2", {}, `${text(isPreview ? "jury.standingWith" : "desk.standing")} `, element("small", {}, text(isPreview ? "jury.aPreview" : "jury.now")))),
    shown ? null : lastChange(), standingTable(rows, state().standing.races, shown?.moves ?? state().last?.moves)];
}

function draw() {
  document.title = text("role.JURY");
  drawClasses();
  if (form.class !== here) beginClass();
  if (!state()) {
    byId("title").textContent = text("role.JURY");
    fill(byId("page"), element("main", {class: "card"}, element("p", {}, text("desk.notOpenYet"))));
    return;
  }
  byId("title").textContent = `${text("role.JURY")} · ${state().title}`;
  const numbers = Object.keys(state().races).map(Number);
  form.race ||= Math.max(0, ...numbers);
  fill(byId("page"), element("main", {class: "desk"},
    element("section", {class: "pane", "aria-labelledby": "decision-title"}, element("h2", {id: "decision-title"}, text("jury.decision")), lackingPart(decisions(), amend), decisionForm(numbers), heldPart()),
    element("section", {class: "pane", "aria-label": text("desk.standing")}, previewBox(wanted(), shown && {...shown, verdict: verdictOf(shown)}, form.sail, {send: sendDecision, drop: nothing}), standingPart())));
  openOthers();
}

function verdictOf({verdict}) {
  if (form.back) return text("jury.isTakenBack", {code: form.back.split(" ")[3]});
  if (isWithoutRaces(form, state().races)) return text("jury.noRaceLeft");
  return form.out ? text("jury.isTakenOut") : verdict?.kind ? verdictWords(verdict) : "";
}

// The other decisions are open while one of them is chosen.
function openOthers() {
  if (isOther(form.what)) document.querySelector("details").open = true;
}

// Another class has other races and boats: what was chosen isn't meant there, and an answer on its way is about the other.
function beginClass() {
  Object.assign(form, EMPTY, {class: here});
  shown = null;
  asked++;
  clearTimeout(timer);
}

beginDesk(draw);
