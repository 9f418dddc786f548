'use strict';
// The top of the finish page: the race of each class, how the link is, the time, and what the next tap means.
import {byId, element, fill} from "./elements.js";
import {languageField, text} from "./texts.js";
import {isOut} from "./office.js";
import {choose, dialogOf} from "./dialogs.js";
import {keep, named, page, queue, raceNow, setMode, stateOf, toComeCount, trouble} from "./finish-state.js";
import {startGridAgain} from "./finish-grid.js";

const RACES = 40;

export function drawTop() {
  document.body.classList.toggle("several", page.classes.length > 1);
  fill(byId("races"), page.classes.map(raceButton));
  drawLink();
  drawBanner();
}

function raceButton(one, place) {
  const number = page.races[one.class], race = raceNow(one.class), left = toComeCount(one.class);
  const title = page.classes.length > 1 ? one.group : text(number ? "common.race" : "finish.raceWhich");
  const words = race.counts ? text("finish.countsAlready") : number ? text("finish.toCome", {n: left}) : text("finish.notSailing");
  return element("button", {type: "button", "data-key": one.class, class: `race class${place} ${race.counts ? "counts" : ""}`,
    "aria-label": `${one.group}: ${text("common.race")} ${number ?? "–"}, ${words}. ${text("finish.chooseRace")}`, onclick: () => chooseRace(one)},
    element("b", {}, number ?? "–"), element("span", {}, element("strong", {}, title), words));
}

function drawLink() {
  const unsent = queue.items.filter(item => stateOf(item) === "unsent").length, isLive = page.link === "live", isAway = unsent || !isLive || trouble();
  byId("link").className = `link ${isOut ? "bad" : isAway ? "away" : ""}`;
  byId("link").textContent = linkWords(unsent, isLive);
  // Who can't see the sign hears it, unless all is well.
  const heard = byId("link").textContent.replace(text("common.live"), "");
  if (byId("heard").textContent !== heard) byId("heard").textContent = heard;
  byId("link").dataset.state = isOut ? "out" : !isAway ? "live" : isLive ? "sending" : "away";
}

function linkWords(unsent, isLive) {
  if (isOut) return text("common.linkEnded");
  if (isLive && queue.items.some(item => item.state === "asked")) return text("finish.answerNeeded");
  if (!isLive) return unsent ? text("finish.unsentOffline", {n: unsent}) : text("common.offline");
  return unsent ? text("finish.sending", {n: unsent}) : trouble() || text("common.live");
}

function drawBanner() {
  const {kind, class: name, sail, mark = sail} = page.mode, whom = () => named(name, mark);
  const words = {code: () => text("finish.tapForCode"), round: () => text("finish.tapAsTheyRound"),
    level: () => text("finish.tapLevelWith", {sail: whom()}), before: () => text("finish.tapAheadOf", {sail: whom()}),
    known: () => text("finish.tapWhoWas", {mark: whom()})}[kind];
  byId("banner").hidden = kind === "finish";
  byId("list").classList.toggle("short", kind !== "finish");
  byId("banner").classList.toggle("code", kind === "code");
  fill(byId("banner"), words ? [element("span", {}, words()),
    element("button", {type: "button", onclick: () => setMode({kind: "finish"})}, text(kind === "round" ? "finish.done" : "common.cancel"))] : []);
  byId("list").style.setProperty("--banner", `${byId("banner").offsetHeight}px`);
}

// Which race of a class is recorded here
async function chooseRace(one) {
  const numbers = Array.from({length: RACES}, (_, index) => index + 1);
  const box = element("div", {class: "picker"}, numbers.map(number => pickButton(one, number)));
  const language = element("label", {class: "field"}, text("common.language"), languageField());
  const done = await choose(text("finish.whichRace", {group: one.group}), [text("finish.greenCounts"), box, language],
    [{value: "none", label: text("finish.notSailing")}, {value: "", label: text("common.cancel")}]);
  if (!done) return;
  if (done === "none") delete page.races[one.class];
  else page.races[one.class] = Number(done);
  page.rounded[one.class] = [];
  keep("races", page.races);
  keep("rounded", page.rounded);
  startGridAgain();
  setMode({kind: "finish"});
}

function pickButton(one, number) {
  const race = page.states[one.class]?.races?.[number], isHere = page.races[one.class] === number;
  const look = `${race ? "some" : ""} ${race?.counts ? "counts" : ""} ${isHere ? "here" : ""}`;
  return element("button", {type: "button", class: look, "data-race": number, "aria-current": isHere ? "true" : null,
    "aria-label": `${text("common.race")} ${number}${race?.counts ? `, ${text("finish.countsAlready")}` : ""}`,
    onclick: event => dialogOf(event.target).end(String(number))}, number);
}
