'use strict';
// The start of a race by corrected time: now, or a time of the clock.
import {element} from "./elements.js";
import {text} from "./texts.js";
import {choose} from "./dialogs.js";
import {now} from "./office.js";
import {addTap, clock, page, raceNow} from "./finish-state.js";

// Asks for the start of a race; if several classes by corrected time sail, of which first.
export async function askStart(timed) {
  const label = one => [one.group, `${text("common.race")} ${page.races[one.class]}`, raceNow(one.class).start].filter(Boolean).join(" · ");
  const choices = [...timed.map(one => ({value: one.class, label: label(one)})), {value: "", label: text("common.cancel")}];
  const name = timed.length > 1 ? await choose(text("finish.start"), [], choices, "stack") : timed[0].class;
  if (name) await askTime(timed.find(one => one.class === name));
}

// Asks for the time until it is one.
async function askTime({class: name, group}) {
  const title = text("finish.startOf", {number: page.races[name]});
  for (let wrong = null;;) {
    const was = raceNow(name).start, field = element("input", {type: "time", step: "1", "aria-label": text("finish.startTime"), value: was});
    const done = await choose(page.classes.length > 1 ? `${group}: ${title}` : title, [element("label", {class: "field"}, text("finish.startTime"), field), wrong], [
      {value: "", label: text("common.cancel")}, {value: "at", label: text("finish.startAt")}, {value: "now", label: text("finish.startNow"), look: "main"}]);
    if (done === "now") addTap(name, "START #", {was});
    if (done !== "at") return;
    if (field.value) {
      if (await isMeant(name, field.value)) addTap(name, `START # ${field.value}`, {was});
      return;
    }
    wrong = element("p", {class: "wrong", role: "alert"}, text("finish.startHow"));
  }
}

// Whether a start is meant that the clock of the series hasn't come to
async function isMeant(name, start) {
  const time = clock(name, now());
  return start <= time || await choose(text("finish.startAhead", {now: time, start}), [],
    [{value: "", label: text("common.no")}, {value: "yes", label: text("common.yes"), look: "main"}]) === "yes";
}
