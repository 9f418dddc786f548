'use strict';
// What is asked in a window over the page, and what is said for a moment.
import {byId, element} from "./elements.js";

// Milliseconds for which something that was said stays, and for which a new window takes no finger: it was meant for
// what is below.
const SAID = 6000, NEW = 400;
let counted = 0, hide = 0;

export const isOpen = () => document.querySelector("dialog[open]") !== null;

// Asks in a window. `choices` are {value, label, look}. Gives the value of the button that was pressed, or "" if
// none was: as soon as it is pressed, so that the next tap knows of it.
export function choose(title, inside, choices, layout = "row") {
  return new Promise(done => {
    const name = `dialog-${++counted}`;
    const end = value => { box.close(); box.remove(); done(value); };
    const buttons = choices.map(({value, label, look}) =>
      element("button", {type: "button", class: look, "data-value": value, onclick: () => end(value)}, label));
    const box = element("dialog", {tabindex: "-1", "aria-labelledby": name},
      element("h2", {id: name}, title), paragraphs(inside), element("div", {class: layout}, buttons));
    box.end = end;
    box.oncancel = event => { event.preventDefault(); end(""); };
    box.onclick = event => { if (event.target === box) end(""); };
    document.body.append(box);
    box.showModal();
    // It is seen from the second frame on, and a click may wait long until the page gets round to it. That of a key has no detail.
    let seen;
    requestAnimationFrame(() => requestAnimationFrame(at => { seen = at; }));
    box.addEventListener("click", event => event.detail && !(event.timeStamp - seen > NEW) && event.stopImmediatePropagation(), true);
    // Enter alone is No, as in a terminal.
    (choices.some(({value}) => value === "yes") ? buttons[0] : box).focus();
  });
}

const paragraphs = inside => [inside].flat().filter(Boolean).map(part => typeof part === "string" ? element("p", {}, part) : part);

// The window in which an element is: its `end` gives a value and closes it.
export const dialogOf = part => part.closest("dialog");

// Says something for a moment, also to a screen reader; what is wrong at once.
export function say(words, isBad = false, milliseconds = SAID) {
  const here = byId(isBad ? "alarm" : "said"), other = byId(isBad ? "said" : "alarm");
  other.textContent = "";
  here.textContent = words;
  clearTimeout(hide);
  hide = setTimeout(() => { here.textContent = ""; }, milliseconds);
}

// Takes away what was said.
export function hush() {
  byId("alarm").textContent = "";
  byId("said").textContent = "";
}
