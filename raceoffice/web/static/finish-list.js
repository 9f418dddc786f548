'use strict';
// The finishers so far, the newest at the end: each with her place, her time, and how far her tap has come.
import {byId, each, element, fill} from "./elements.js";
import {ordinal, refusalOf, text} from "./texts.js";
import {me} from "./office.js";
import {kindOf, spaced} from "./sails.js";
import {duration, finishers, heldBy} from "./race-view.js";
import {answer, askedItem, boatNamed, clock, isHere, isWaiting, named, page, queue, raceNow, shownLine, withPart} from "./finish-state.js";
import {buzz} from "./finish-taps.js";

// Milliseconds of a long press, and pixels of a swipe to the left
const LONG = 700, SWIPE = 70, STILL = 12;
// So near is the end of the list that it is shown whole, also once the list is shorter by a banner.
const NEAR_END = 40, NEAR_BANNER = 110;
let rowsBefore = 0;

export function drawList() {
  const list = byId("list"), near = list.classList.contains("short") ? NEAR_BANNER : NEAR_END;
  const wasAtEnd = list.scrollTop + list.clientHeight > list.scrollHeight - near;
  const lists = each(page.classes, (one, place) => page.races[one.class] ? rowsOf(one, place) : []);
  const rows = merged(lists);
  fill(list, rows.map(row => row.node), each(queue.items.filter(isLeft), leftRow));
  if (wasAtEnd || rows.length !== rowsBefore) list.scrollTop = list.scrollHeight;
  rowsBefore = rows.length;
}

// The rows of a class in its order, each with the latest time up to it.
function rowsOf(one, place) {
  const race = raceNow(one.class);
  let latest = 0;
  return finishers(race).map(row => {
    latest = Math.max(latest, row.at ?? 0);
    return {node: row.gap ? unreadRow(one, place, row) : boatRow(one, place, race, row), at: latest};
  });
}

// The rows of several classes by the clock; those of one class stay in their order.
function merged(lists) {
  const all = [];
  for (;;) {
    const left = lists.filter(rows => rows.length);
    if (!left.length) return all;
    all.push(left.reduce((one, other) => one[0].at <= other[0].at ? one : other).shift());
  }
}

function boatRow(one, place, race, row) {
  const {sail} = row, boat = boatNamed(one.class, sail), state = race.unsent[sail];
  const isLate = state === "unsent" || state === "asked", item = askedItem(one.class, sail);
  const names = withGroup(one, boat.name || boat.helm);
  const codes = heldBy(race, sail).map(code => [" ", element("span", {class: `code ${kindOf(code)}`}, code)]);
  const open = () => item ? answer(item) : withPart("rows", ({askFinisher}) => askFinisher(one.class, sail));
  return element("li", {class: `class${place} ${isLate ? "unsent" : ""} ${page.mode.class === one.class && page.mode.sail === sail ? "target" : ""}`,
    "data-key": `${one.class} ${sail}`, "data-sail": sail, ...gestures(() => withPart("rows", ({askStrike}) => askStrike(one.class, sail)))},
    element("button", {type: "button", class: "finisher", onclick: () => takeClick(open)},
      element("span", {class: "place", "aria-label": row.place ? ordinal(row.place) : text("finish.noPlace")},
        row.place || "–", row.isTied && row.place ? element("sup", {}, "=") : null),
      element("span", {class: "sail"}, spaced(sail)), element("span", {class: "name"}, names, codes),
      element("span", {class: "end"}, element("b", {}, timeWords(one.class, race, row)), progress(state, race.by[sail], race.waiting?.includes(sail)))));
}

// Her elapsed time where that is known, or else the time of day
function timeWords(name, race, row) {
  const seconds = race.elapsed?.[row.sail];
  return typeof seconds === "number" ? duration(seconds) : clock(name, row.at);
}

// How far a tap has come
function progress(state, by, isWaiting) {
  if (state === "asked") return element("i", {}, text("finish.answerHere"));
  if (state === "unsent") return element("i", {}, text("finish.unsent"));
  if (state === "way") return element("i", {}, "…");
  if (isWaiting || state === "noted") return element("i", {}, text("finish.inSheet"));
  if (by && by !== me?.name) return element("i", {}, by);
  return element("i", {}, element("span", {role: "img", "aria-label": text("finish.recorded")}, "✓"));
}

// A boat's class, if there are several, and more about her
const withGroup = (one, words) => [page.classes.length > 1 ? one.group : "", words].filter(Boolean).join(" · ");

function unreadRow(one, place, row) {
  const {gap} = row, name = one.class, isAsked = gap.state === "asked", isUnsent = isAsked || gap.state === "unsent";
  const words = isAsked ? text("finish.answerHere") : isUnsent ? text("finish.unsent") : gap.state === "way" ? "…" : text("finish.kept");
  const item = isAsked && queue.items.find(({id}) => id === gap.id), askWho = () => gap.mark !== "?" && withPart("rows", ({askUnread}) => askUnread(name, gap.mark));
  return element("li", {class: `class${place} unread ${isUnsent ? "unsent" : ""}`, "data-key": `${name} ${gap.mark} ${gap.at ?? ""}`},
    element("button", {type: "button", class: "finisher", onclick: () => item ? answer(item) : askWho()},
      element("span", {class: "place", "aria-label": ordinal(row.place)}, row.place), element("span", {class: "sail"}, gap.mark),
      element("span", {class: "name"}, withGroup(one, text("finish.notRead"))),
      element("span", {class: "end"}, element("b", {}, clock(name, gap.at)), element("i", {}, words))));
}

const isServed = item => page.classes.some(one => one.class === item.class);
// Whether somebody has to read of a tap: it is refused, its class isn't served here, or the office says why it waits
const isLeft = item => item.state === "refused" || item.state !== "done" && !isServed(item) || isWaiting(item) && item.words;

function leftRow(item) {
  const [, number, sail] = shownLine(item).split(" ");
  const isRefused = item.state === "refused", end = text(isRefused ? "finish.refused" : "finish.unsent");
  return element("li", {class: "refused", "data-key": item.id},
    element("button", {type: "button", class: "finisher", onclick: () => withPart("answers", ({showLeft}) => showLeft(item))},
      element("span", {class: "place", "aria-hidden": "true"}, isRefused ? "✕" : "!"), element("span", {class: "sail"}, sail ? named(item.class, sail) : item.line),
      element("span", {class: "name"}, isRefused ? refusalOf(item.answer, item.words) : isServed(item) ? item.words : ""),
      element("span", {class: "end"}, element("b", {}, clock(item.class, item.at)), element("i", {}, !number || isHere(item) ? end : `${text("common.race")} ${number}`))));
}

// The finger that is down on a row: it moves to the left, rests, or just taps. There is one at a time.
const finger = {x: 0, timer: 0, isGesture: false};

function gestures(done) {
  const gesture = () => { finger.isGesture = true; buzz(30); done(); };
  return {
    onpointerdown: event => {
      finger.x = event.clientX;
      finger.isGesture = false;
      clearTimeout(finger.timer);
      finger.timer = setTimeout(gesture, LONG);
    },
    onpointermove: event => { if (Math.abs(event.clientX - finger.x) > STILL) clearTimeout(finger.timer); },
    onpointerup: event => {
      clearTimeout(finger.timer);
      if (!finger.isGesture && finger.x - event.clientX > SWIPE) gesture();
    },
    onpointercancel: () => clearTimeout(finger.timer)};
}

// A click that ends a swipe or a long press is none.
function takeClick(done) {
  if (finger.isGesture) finger.isGesture = false;
  else done();
}
