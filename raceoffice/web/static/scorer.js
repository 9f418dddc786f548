'use strict';
// The scorer's page: races and standing, results, links and devices, the office, a new series.
import {byId, element, fill} from "./elements.js";
import {text} from "./texts.js";
import {me} from "./office.js";
import {beginDesk, chooseRace, drawClasses, here, raceShown, state} from "./desk.js";
import {lastChange, standingTable} from "./standing.js";
import {racePane} from "./scorer-race.js";
import {lookAtResults, resultsPage} from "./scorer-results.js";
import {forgetLink, linksPage, lookAtDevices, officePage} from "./scorer-links.js";
import {newSeries} from "./new-series.js";
import {settingsPage} from "./scorer-settings.js";
import {drawTimes, timesPage} from "./scorer-times.js";
import {rulesWords} from "./rules-words.js";

const TABS = ["races", "results", "links", "office", "times", "settings", "new"];
// The forms of one class
const OF_CLASS = {times: timesPage, settings: settingsPage};
const isShown = name => name !== "times" || state()?.handicap;
const RACES = 40;
// Milliseconds between two looks at the devices, or at the results
const LOOK = 4000;
let tab = "races";

function standingPane() {
  const {standing, last, settings} = state(), isEmpty = !standing.races.length;
  const after = isEmpty ? text("scorer.noRaceCounts") : text("scorer.afterRaces", {n: standing.races.length});
  return element("section", {class: "pane", "aria-labelledby": "standing-title"},
    element("header", {}, element("h2", {id: "standing-title"}, `${text("desk.standing")} `, element("small", {}, after))),
    lastChange(), isEmpty ? null : standingTable(standing.rows, standing.races, last?.moves), element("p", {class: "soft"}, rulesWords(settings)));
}

function raceTab(one, number) {
  const found = state().races[one], words = text(found?.counts ? "scorer.counts" : found ? "scorer.open" : "scorer.new");
  return element("button", {type: "button", "data-key": one, class: found?.counts ? "counts" : "", "aria-current": one === number ? "true" : null,
    "aria-label": `${text("common.race")} ${one}: ${words}`, onclick: () => { chooseRace(one); draw(); }}, one, element("small", {}, words));
}

function emptyPage() {
  return element("main", {class: "card"}, element("p", {}, text(me?.classes.length ? "desk.notOpenYet" : "scorer.noSeries")),
    element("button", {type: "button", class: "main", onclick: () => show("new")}, text("scorer.makeSeries")));
}

function racesPage() {
  if (!state()) return emptyPage();
  const most = Math.min(RACES, Math.max(0, ...Object.keys(state().races).map(Number)) + 1), number = Math.min(raceShown(), most);
  return element("main", {class: "desk"},
    element("nav", {class: "races", "aria-label": text("common.races")}, Array.from({length: most}, (_, at) => raceTab(at + 1, number))),
    racePane(here, number, draw), standingPane());
}

// What is looked at while a tab is shown
const LOOKS = {results: lookAtResults, links: lookAtDevices, office: lookAtDevices};

function lookIfShown() {
  const look = LOOKS[tab];
  look?.(() => { if (LOOKS[tab] === look) draw(); });
}

function show(name) {
  tab = name;
  forgetLink();
  lookIfShown();
  draw();
}

// Each part stays the same node while it is shown, so that what is typed, the focus and the scrolling stay.
function draw() {
  if (!isShown(tab)) tab = "races";
  byId("title").textContent = state()?.title ?? text("enter.title");
  document.title = `${text("role.SCORER")} · ${state()?.title ?? ""}`;
  byId("tabs").setAttribute("aria-label", text("scorer.parts"));
  fill(byId("tabs"), TABS.filter(isShown).map(name => element("button", {type: "button", id: `tab-${name}`, "aria-current": tab === name ? "page" : null,
    onclick: () => show(name)}, text(`scorer.tab.${name}`))));
  drawClasses();
  // Forms have a life of their own. These are about one class, and so is the reason of a declaration.
  const name = tab in OF_CLASS || tab === "results" ? `${tab} ${here}` : tab, isSame = byId("page").dataset.tab === name;
  if (isSame && tab === "times") drawTimes();
  if (isSame && (tab === "new" || tab in OF_CLASS)) return;
  byId("page").dataset.tab = name;
  const shown = {races: racesPage, results: () => here ? resultsPage(draw) : emptyPage(), links: linksPage, office: officePage,
    new: () => newSeries(() => show("links")),
    ...Object.fromEntries(Object.entries(OF_CLASS).map(([one, page]) => [one, () => here ? page(here) : emptyPage()]))}[tab]();
  if (isSame) fill(byId("page"), shown);
  else byId("page").replaceChildren(shown);
}

setInterval(lookIfShown, LOOK);
beginDesk(draw).then(() => { if (me && !me.classes.length) show("new"); });
