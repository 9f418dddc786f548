'use strict';
// A device comes by its link. The secret is behind the #, which no browser sends to a server by itself.
import {byId, element, fill} from "./elements.js";
import {languageField, loadTexts, text, troubleOf} from "./texts.js";
import {ask} from "./office.js";

const ROLES = ["finish", "jury", "scorer"];
const DEVICES = ["iPad", "iPhone", "Android", "Mac", "Windows"];
const [role, key] = location.hash.slice(1).split(".");

// What a device is called if nobody says so
function usualName() {
  return DEVICES.find(name => navigator.userAgent.includes(name)) ?? text("enter.computer");
}

async function enter(name) {
  const said = await ask(`/office/${role}/in`, {role, key, name});
  if (said.status === 200) location.replace(said.next);
  else fill(byId("wrong"), troubleOf(said));
}

function withoutLink() {
  const ways = ROLES.map(one => element("li", {}, element("a", {href: `/office/${one}/`}, text(`enter.before.${one}`))));
  return [element("h2", {}, text("enter.openLink")), element("p", {}, text("enter.whoHasLinks")),
    element("p", {}, element("a", {href: "/"}, text("enter.board"))), element("ul", {class: "ways"}, ways)];
}

function withLink() {
  const name = element("input", {id: "name", value: usualName(), maxlength: 30, autocomplete: "off", onfocus: event => event.target.select()});
  const send = event => { event.preventDefault(); enter(name.value); };
  return [element("h2", {}, text(`enter.as.${role}`)),
    element("form", {onsubmit: send}, element("label", {class: "field", for: "name"}, text("enter.whatCalled"), name),
      element("button", {class: "main", id: "go"}, text("enter.comeIn"))),
    element("p", {id: "wrong", class: "wrong", role: "alert"})];
}

async function begin() {
  await loadTexts();
  document.title = text("enter.title");
  byId("title").textContent = text("enter.title");
  fill(byId("languages"), languageField());
  fill(byId("main"), ROLES.includes(role) && key ? withLink() : withoutLink());
}

// Another link that is put into this tab's address differs behind the # alone.
addEventListener("hashchange", () => location.reload());
begin();
