'use strict';
// The words of the pages in the language of this device: each text has a key in texts/LANGUAGE.json, or in
// texts/LANGUAGE-desk.json if the finish page doesn't need it.
import {element} from "./elements.js";

export const LANGUAGES = {en: "English", de: "Deutsch", fr: "Français", es: "Español", it: "Italiano", nl: "Nederlands"};
const KEPT = "language";

let table = {}, isWhole = false;
export let language = "en";
let plural = new Intl.PluralRules("en"), places = new Intl.PluralRules("en", {type: "ordinal"});

// The language that somebody chose here, or else the first of the device's that there is.
function wanted() {
  let kept = null;
  try { kept = localStorage.getItem(KEPT); } catch { /* no storage */ }
  const asked = [kept, ...navigator.languages ?? [navigator.language]].filter(Boolean);
  return asked.map(one => one.slice(0, 2).toLowerCase()).find(one => one in LANGUAGES) ?? "en";
}

async function tableOf(name) {
  const answer = await fetch(`/office/static/texts/${name}.json`, {cache: "no-cache"});
  return answer.json();
}

// Fetches the words; they are there before anything is drawn. The finish page, which has to come over a weak
// line, needs only the first part of them.
export async function loadTexts(isFinish = false) {
  language = wanted();
  const tables = await Promise.all((isFinish ? [language] : [language, `${language}-desk`]).map(tableOf));
  table = Object.assign({}, ...tables);
  plural = new Intl.PluralRules(language);
  places = new Intl.PluralRules(language, {type: "ordinal"});
  document.documentElement.lang = language;
}

// Fetches the other words, too, until they are there.
export async function loadRest() {
  if (!isWhole) Object.assign(table, await tableOf(`${language}-desk`));
  isWhole = true;
}

export const hasText = key => key in table;

// Why a line was refused, by the number that the program gave: "NO 8"
export function refusalOf(answer, words) {
  const number = /^NO (\d+)/.exec(answer ?? "")?.[1];
  return number && hasText(`refused.${number}`) ? text(`refused.${number}`) : words;
}

// What is wrong with an answer that isn't a result
export function troubleOf(answer) {
  const key = [`trouble.${answer.kind}`, `trouble.${answer.status}`].find(hasText);
  return key ? text(key) : answer.words ?? text("common.notSent");
}

// The form of a text for a number: its own form for nought if it has one, or that of the language's rules.
function form(forms, number) {
  if (typeof forms === "string") return forms;
  if (number === 0 && "zero" in forms) return forms.zero;
  return forms[plural.select(number)] ?? forms.other;
}

// A text with its values in place of the names in braces. `n` chooses between one and several.
export function text(key, values = {}) {
  const forms = table[key];
  if (forms === undefined) return key;
  return form(forms, Number(values.n ?? 1)).replace(/\{(\w+)\}/g, (whole, name) => name in values ? shownValue(values[name]) : whole);
}

function shownValue(value) {
  if (Array.isArray(value)) return list(value);
  return typeof value === "number" ? String(value) : value;
}

// The place of a finisher in words: 1st, 1., 1er
export function ordinal(number) {
  const forms = table["common.ordinal"] ?? {other: "{n}"};
  return (forms[places.select(number)] ?? forms.other).replace("{n}", String(number));
}

// Several in a row: "A, B and C"
export function list(several) {
  return new Intl.ListFormat(language, {type: "conjunction"}).format(several.map(String));
}

// Points and scores: 12.5, or 12,5
export function points(written) {
  const mark = new Intl.NumberFormat(language).format(1.5).charAt(1);
  return String(written).replace(".", mark);
}

// A date whose UTC is what the clock of a class's `zone` shows
export function byClock(milliseconds, zone) {
  const [, ahead] = zone.findLast(([since]) => since <= milliseconds) ?? zone[0];
  return new Date(milliseconds + ahead);
}

// A moment of the day, as 14:05:09, in every language; nothing while the zone isn't known
export function timeOfDay(milliseconds, zone) {
  return milliseconds && zone ? byClock(milliseconds, zone).toISOString().slice(11, 19) : "";
}

// The field in which somebody chooses another language: the page begins again with it.
export function languageField() {
  const options = Object.entries(LANGUAGES).map(([code, name]) =>
    element("option", {value: code, lang: code, selected: code === language}, name));
  const chosen = event => {
    try { localStorage.setItem(KEPT, event.target.value); } catch { /* no storage */ }
    location.reload();
  };
  return element("select", {id: "language", class: "language", "aria-label": text("common.language"), onchange: chosen}, options);
}
