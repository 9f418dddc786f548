'use strict';
// A boat from a list, by what is typed of her sail or name.
import {element, fill} from "./elements.js";
import {text} from "./texts.js";
import {called} from "./desk.js";

const MOST = 60;
const plain = words => words.replace(/\s/g, "").toLowerCase();

// Gives the sail of a boat of a class, or "" if none was chosen.
export function findBoat(name, title, sails, hint = "") {
  return new Promise(done => {
    const end = value => { box.close(); box.remove(); done(value); };
    const found = element("div", {class: "missing"});
    const show = () => fill(found, sails.filter(sail => plain(called(sail, name)).includes(plain(field.value))).slice(0, MOST)
      .map(sail => element("button", {type: "button", "data-key": sail, "data-sail": sail, onclick: () => end(sail)}, called(sail, name))));
    const takeFirst = event => {
      if (event.key !== "Enter") return;
      event.preventDefault();
      found.querySelector("button")?.click();
    };
    const field = element("input", {type: "search", "aria-label": text("desk.sailOrName"), placeholder: text("desk.sailOrName"),
      oninput: show, onkeydown: takeFirst});
    const box = element("dialog", {"aria-labelledby": "finder-title", oncancel: event => { event.preventDefault(); end(""); }},
      element("h2", {id: "finder-title"}, title), hint ? element("p", {class: "soft"}, hint) : null, field, found,
      element("div", {class: "row"}, element("button", {type: "button", onclick: () => end("")}, text("common.cancel"))));
    document.body.append(box);
    show();
    box.showModal();
    field.focus();
  });
}
