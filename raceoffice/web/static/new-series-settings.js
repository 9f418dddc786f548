'use strict';
// The settings of a series in the words of sailing instructions.
import {element} from "./elements.js";
import {hasText, text} from "./texts.js";
import {remarkSentences} from "./remark-words.js";

// Rating systems as times/rules.ini has them
const SYSTEMS = [["tcf", "TCF"], ["py", "PY"], ["tod", "TOD"]];
const ROUNDINGS = ["half-up", "half-down", "down", "up"];
const MOST_RACES = 40, MOST_PLACES = 99;
// The fields of numbers of races from which one more score is excluded
const EXCLUDED = ["one", "two", "three", "four"];
// What holds if the sailing instructions say nothing
export const USUAL = {exclude: "2", absent: "a52", scp: "", handicap: "no"};

function choice(name, value, key, isChosen = false, more = "") {
  return element("label", {}, element("input", {type: "radio", name, value, checked: isChosen, id: `${name}-${value}`}),
    element("span", {}, text(key), more ? element("small", {}, text(more)) : null));
}

function group(title, ...choices) {
  return element("fieldset", {class: "options"}, element("legend", {}, text(title)), choices);
}

const raceField = (name, key, value) => element("label", {class: "number"}, text(key),
  element("input", {type: "number", name, min: 2, max: MOST_RACES, value, inputmode: "numeric"}));

function exclusions(exclude) {
  const kind = {2: "usual", none: "none"}[exclude] ?? "other", races = kind === "other" ? exclude.split(",") : ["4"];
  return group("new.excluded", choice("exclude", "usual", "new.excludeUsual", kind === "usual", "new.excludeUsualMeans"),
    choice("exclude", "none", "new.excludeNone", kind === "none"), choice("exclude", "other", "new.excludeOther", kind === "other"),
    element("div", {class: "numbers"}, EXCLUDED.map((name, at) => raceField(name, `new.${name}From`, races[at]))));
}

// The settings as they are. The rating system can be chosen until the series is by corrected time, and has one.
export function instructionsStep({exclude, absent, scp, handicap} = USUAL, system = "", rounding = "") {
  return [exclusions(exclude),
    group("new.absent", choice("absent", "a52", "new.a52", absent === "a52", "new.a52Means"), choice("absent", "a53", "new.a53", absent === "a53", "new.a53Means")),
    group("new.scp", choice("scp", "usual", "new.scpUsual", !scp), choice("scp", "points", "new.scpPoints", Boolean(scp)),
      element("div", {class: "numbers"}, element("label", {class: "number"}, text("new.places"),
        element("input", {type: "number", name: "points", min: 1, max: MOST_PLACES, value: scp || null, inputmode: "numeric"})))),
    group("new.placesBy", choice("handicap", "no", "new.byOrder", handicap === "no"), choice("handicap", "yes", "new.byCorrectedTime", handicap === "yes", "new.correctedMeans"),
      element("div", {class: "numbers"}, element("label", {class: "number"}, text("new.system"),
        element("select", {name: "system", disabled: handicap === "yes" && system !== ""}, SYSTEMS.map(([value, name]) => element("option", {value, selected: value === system}, name))))),
      element("label", {class: "field"}, text("new.rounding"), element("select", {name: "rounding", id: "rounding"},
        ROUNDINGS.map(value => element("option", {value, selected: value === rounding}, text(`new.rounding.${value}`))))))];
}

// The settings as series.ini has them, from what was chosen
export function settingsOf(form) {
  const value = name => String(form.get(name) ?? "").trim();
  const races = EXCLUDED.map(value).filter(Boolean).join(",");
  return {title: value("title"), class: value("class"), club: value("club"),
    exclude: {usual: "2", none: "none", other: races}[value("exclude")], absent: value("absent"),
    scp: value("scp") === "points" ? value("points") : "", handicap: value("handicap")};
}

// What is wrong with settings, as the office says it, in words
export function wrongWords({keys, wrong}) {
  return keys.length && keys.every(key => hasText(`new.wrong.${key}`)) ? keys.map(key => text(`new.wrong.${key}`)) : remarkSentences(wrong);
}
