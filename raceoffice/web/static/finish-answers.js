'use strict';
// What the office asks about a tap of this device, and what somebody answers.
import {element} from "./elements.js";
import {byClock, language, refusalOf, text, timeOfDay} from "./texts.js";
import {isOneClock} from "./office.js";
import {choose} from "./dialogs.js";
import {spaced} from "./sails.js";
import {agreedOf, wordsOf} from "./questions.js";
import {clock, named, page, queue} from "./finish-state.js";

// Questions about a boat and a place that may be answered by no
const MAY_DENY = ["finished-after", "place-ahead"];

export async function ask(item) {
  const {clock: asked} = item, isWhen = !item.question;
  const done = isWhen ? await askWhen(item) : item.isWhere ? await askWhere(item) : await askWhether(item);
  if (done === "drop") queue.drop(item);
  else if (isWhen && done) takeMoments(asked, done);
  else if (done === "ahead") queue.change(item, {state: "unsent", denied: [...item.denied ?? [], agreedOf(item.question)]});
  else if (done === "after") queue.change(item, {state: "unsent", behind: null});
  else if (done) queue.change(item, {state: "unsent", agreed: [...item.agreed, agreedOf(item.question)]});
  else page.putOffAt = performance.now();
  if (done === "clock") goByClock(item.class);
  queue.send();
  page.redraw();
}

// A tap that is refused, or that waits: what is said of it
export async function showLeft(item) {
  const words = [refusalOf(item.answer, item.words) ?? "", element("p", {class: "mono"}, item.line)], isRefused = item.state === "refused";
  const done = await choose(text(isRefused ? "finish.officeRefused" : "common.notSent"), words,
    [{value: "", label: text("finish.keepItHere")}, {value: "ok", label: text(isRefused ? "finish.understood" : "finish.dropTap"), look: "main"}]);
  if (done === "ok") queue.drop(item);
  queue.send();
}

function askWhether(item) {
  const [mark, , sail = mark] = item.line.split(" ");
  const {kind, values} = item.question;
  // She may be ahead of a place: no other button puts her there.
  const ahead = MAY_DENY.includes(kind) ? [{value: "ahead", label: text("finish.noAhead", {mark: values.mark})}] : [];
  const drop = {value: "drop", label: text(ahead.length ? "finish.dropTap" : "finish.noDrop"), look: "bad"};
  return choose(text("common.isThatRight"), [page.classes.length > 1 && named(item.class, sail), wordsOf(item.question)],
    [drop, ...ahead, {value: "yes", label: text("finish.yesSend"), look: "main"}], ahead.length ? "stack" : undefined);
}

// The clock of this device was set while the office wasn't reached, before the tap or after it.
function askWhen(item) {
  const [mark, , sail] = item.line.split(" ");
  // The zone of a class that isn't served here any more isn't known.
  const zone = page.states[item.class]?.zone ?? [[0, 0]];
  const label = at => `${byClock(at, zone).toLocaleDateString(language, {dateStyle: "long", timeZone: "UTC"})}, ${timeOfDay(at, zone)}`;
  const moments = {[label(item.at)]: "then"};
  for (const [value, at] of Object.entries(item.clock.others)) if (at) moments[label(at)] ??= value;
  return choose(text("finish.whenTapped", {sail: named(item.class, sail ?? mark)}), text("finish.clockWasSet"),
    [...Object.entries(moments).map(([label, value]) => ({value, label})), {value: "drop", label: text("finish.dropTap"), look: "bad"}], "stack");
}

// The moments of all taps that go by this clock: as they were shown then, or others that they may be
function takeMoments(asked, chosen) {
  for (const item of queue.items.filter(one => one.clock?.others && ["asked", "unsent"].includes(one.state))) {
    const at = Math.round(item.clock.others[chosen] || item.at);
    if (item.clock === asked || isOneClock(asked, item.clock)) queue.change(item, {state: "unsent", at, clock: undefined});
  }
}

// Others were recorded since she was tapped: where did she finish?
function askWhere(item) {
  const [mark, , boat] = item.line.split(" "), sail = boat ?? mark, [command, , , other] = (item.byClock ?? "").split(" ");
  const isAhead = command === "BEFORE";
  const byTime = {value: "clock", label: text("finish.byClock", {sail: spaced(other ?? "")}), look: "main"};
  return choose(text("finish.whereDidSheFinish", {sail: named(item.class, sail)}),
    [wordsOf(item.question), element("p", {class: "soft"}, text("finish.tappedAt", {time: clock(item.class, item.at)}))],
    [...(isAhead ? [byTime] : []), {value: "after", label: text("finish.afterAll"), look: isAhead ? "" : "main"},
      {value: "drop", label: text("finish.dropTap"), look: "bad"}], "stack");
}

// Whoever goes by the clock once goes by it for all that were tapped before now.
function goByClock(name) {
  for (const item of queue.of(name)) {
    const isFinisher = /^(FINISH|\?) /.test(item.line) && ["asked", "unsent"].includes(item.state);
    if (isFinisher) queue.change(item, {state: "unsent", by_clock: true});
  }
}
