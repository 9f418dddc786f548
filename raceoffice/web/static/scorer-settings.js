'use strict';
// The settings of a series that there is already: what others would do, and how they are saved.
import {element, fill} from "./elements.js";
import {list, text} from "./texts.js";
import {ask, comeIn} from "./office.js";
import {addressOf} from "./sending.js";
import {choose, say} from "./dialogs.js";
import {remarkSentences, remarkWords, troubleWords} from "./remark-words.js";
import {verdictWords} from "./jury-kept.js";
import {moveRows} from "./jury-preview.js";
import {instructionsStep, settingsOf, wrongWords} from "./new-series-settings.js";
import {rulesWords} from "./rules-words.js";
import {openAsking} from "./scorer-links.js";
import {send} from "./desk.js";

// Milliseconds: until the effect is asked for after a change, and for an answer that takes replays of the journal
const SOON = 300, LONG = 130000;

const named = keys => list(keys.map(key => text(`settings.key.${key}`)));
const step = (title, ...inside) => element("section", {class: "step"}, element("h2", {}, title), inside);

// The races that get other times, and whom that moves
function retimedParts({retimed = [], moved = []}) {
  if (!retimed.length) return null;
  return [element("ul", {class: "waits", id: "retimed"}, retimed.map(one => element("li", {}, text("settings.retimed", one)))),
    element("ul", {class: "moves"}, moveRows(moved))];
}

// Whom the settings would move, and when each holds
function effectParts(found) {
  if (found.status !== 200) return element("p", {class: "wrong"}, troubleWords(found));
  if (found.wrong.length) return element("p", {class: "wrong"}, wrongWords(found).join("\n"));
  const {moves, stale, refused} = found;
  return [element("p", {}, rulesWords(found.settings)),
    found.at_once.length ? element("p", {}, text("settings.atOnce", {what: named(found.at_once)})) : null,
    found.at_opening.length ? element("p", {class: "waits"}, text("settings.atOpening", {what: named(found.at_opening)})) : null,
    refused ? element("p", {class: "wrong"}, text("settings.refused", {why: refused.map(remarkWords).join("; ")})) : null,
    refused ? null : element("h4", {}, moves.length ? text("jury.wouldChange", {n: moves.length}) : text("jury.noChange")),
    element("ul", {class: "moves"}, moveRows(moves)), retimedParts(found),
    stale.length ? [element("p", {class: "waits"}, text("settings.stale")), element("ul", {}, stale.map(one => element("li", {}, one.kind ? verdictWords(one) : remarkSentences(one.wrong).join("\n"))))] : null];
}

// The form with the settings of a class. Nothing can be saved before its effect is shown.
class SettingsForm {
  constructor(name, found, again) {
    Object.assign(this, {name, found, again, asked: 0, timer: 0});
    this.effect = element("div", {id: "effect", role: "status"});
    this.button = element("button", {class: "main", id: "save", disabled: true}, text("settings.save"));
    this.node = element("form", {class: "steps", onsubmit: event => { event.preventDefault(); this.save(); }, oninput: () => this.lookSoon()},
      step(text("settings.names"), this.nameFields()),
      step(text("new.instructions"), instructionsStep(found.settings, found.system, found.rounding)),
      element("section", {class: "step"}, element("h2", {}, text("new.meaning")), element("div", {class: "meaning"}, this.effect)), this.button);
    this.look();
  }

  nameFields() {
    const field = (key, name, more) => element("label", {class: "field"}, text(key),
      element("input", {id: `set-${name}`, name, value: this.found.settings[name], autocomplete: "off", ...more}));
    return [element("div", {class: "two"}, field("new.title", "title", {required: true}), field("new.class", "class")),
      element("div", {class: "two"}, field("new.clubIfAny", "club"), field("settings.zone", "zone", {spellcheck: "false"}))];
  }

  get values() {
    const form = new FormData(this.node);
    return {settings: {...settingsOf(form), zone: String(form.get("zone")).trim()}, system: form.get("system"), rounding: form.get("rounding"), rounding_was: this.found.rounding,
      tag: this.found.tag};
  }

  lookSoon() {
    this.button.disabled = true;
    clearTimeout(this.timer);
    this.timer = setTimeout(() => this.look(), SOON);
  }

  async look() {
    const mine = ++this.asked, found = await ask(addressOf("rules", this.name), this.values, LONG);
    if (mine !== this.asked) return;
    fill(this.effect, effectParts(found));
    this.retimed = found.retimed ?? [];
    this.button.disabled = found.status !== 200 || found.wrong.length > 0 || Boolean(found.refused);
  }

  async save() {
    if (this.button.disabled) return;
    this.button.disabled = true;
    const races = this.retimed.map(({race}) => race), done = await ask(addressOf("save", this.name), this.values, LONG);
    this.button.disabled = false;
    if (done.status !== 200) {
      say(troubleWords(done), true);
      return;
    }
    const left = await sendTimes(this.name, races);
    if (!left.length) say(text("settings.saved"));
    await comeIn();
    this.again(done, left);
  }
}

// Sends the times of races by the rounding that was saved; the races of which that wasn't done
async function sendTimes(name, races) {
  const left = [];
  for (const race of races) {
    const done = await send(name, `TIMES ${race}`);
    if (!done || done.outcome === "refused") left.push(race);
  }
  return left;
}

// The races that still have the times by the rounding before
function leftPart(name, races, again) {
  if (!races.length) return null;
  const sendAgain = async () => {
    const left = await sendTimes(name, races);
    if (!left.length) say(text("settings.saved"));
    again(undefined, left);
  };
  return element("section", {class: "step", id: "times-left"}, element("p", {class: "waits"}, text("settings.timesLeft", {n: races.length, races})),
    element("div", {class: "acts"}, element("button", {type: "button", id: "send-left", onclick: sendAgain}, text("settings.sendTimes"))));
}

async function reopen(name, again) {
  const done = await choose(text("settings.reopenQuestion"), text("settings.reopenMeans"),
    [{value: "", label: text("common.no")}, {value: "yes", label: text("settings.reopen"), look: "bad"}]);
  if (done !== "yes") return;
  await openAsking("reopen", name);
  again();
}

async function openClosed(name, again) {
  await openAsking("open", name);
  again();
}

// What brings what was saved into force
function openingPart(name, found, again) {
  const button = (id, done, key) => element("div", {class: "acts"}, element("button", {type: "button", id, onclick: () => done(name, again)}, text(key)));
  if (found.is_kept_here) return button("reopen", reopen, "settings.reopen");
  return found.is_open ? element("p", {class: "waits"}, text("settings.otherWindow")) : button("open-closed", openClosed, "office.open");
}

// What was saved, and doesn't hold yet
function waitingPart(name, found, again) {
  if (!found.waiting.length) return null;
  return element("section", {class: "step", id: "waiting"}, element("h2", {}, text("settings.waiting")),
    element("p", {}, text("settings.atOpening", {what: named(found.waiting)})),
    element("p", {class: "soft"}, text("settings.opened", {rules: rulesWords(found.opened)})), openingPart(name, found, again));
}

// Shows the settings of a class in a part of the page. `known` is what the office said of them just now, if it did; `left`
// are the races whose times weren't sent after that.
async function show(page, name, known, left = []) {
  const found = known ?? await ask(addressOf("rules", name)), again = (said, races = left) => show(page, name, said, races);
  if (found.status !== 200) page.replaceChildren(element("p", {class: "card wrong"}, troubleWords(found)));
  else if (found.wrong.length) page.replaceChildren(element("p", {class: "card wrong"}, remarkSentences(found.wrong).join("\n")));
  else page.replaceChildren(element("div", {class: "steps"}, leftPart(name, left, again), waitingPart(name, found, again)), new SettingsForm(name, found, again).node);
}

// The page of a class; it has a life of its own.
export function settingsPage(name) {
  const page = element("main", {}, element("p", {class: "card soft"}, text("settings.reading")));
  show(page, name);
  return page;
}
