'use strict';
// Links, devices and offices: what the scorer looks after beside the races.
import {element} from "./elements.js";
import {text, timeOfDay} from "./texts.js";
import {ask} from "./office.js";
import {state} from "./desk.js";
import {choose, hush, say} from "./dialogs.js";
import {agreedOf} from "./questions.js";
import {remarkWords, troubleWords} from "./remark-words.js";
import {addressOf, agrees, withClass} from "./sending.js";
import {codePicture} from "./qr.js";

const ROLES = ["FINISH", "JURY", "SCORER"];
// Milliseconds that opening and closing an office may take
const OPENING = 95000, CLOSING = 40000;
const MINUTE = 60;
// So many of the office's last words are shown when it doesn't open
const SHOWN = 4;

// What the office last said of its devices, and the link that was made just now
const known = {devices: null, link: null};
let drawAgain = () => {};

export function forgetLink() {
  known.link = null;
}

export async function lookAtDevices(draw) {
  drawAgain = draw;
  const found = await ask("devices");
  if (found.status !== 200) return;
  known.devices = found;
  draw();
}

async function makeLink(role, isMore) {
  const agreed = isMore || await choose(text("links.newFor", {role: text(`role.${role}`)}), text("links.oldAreOut"),
    [{value: "", label: text("common.cancel")}, {value: "yes", label: text("links.makeIt"), look: "bad"}]) === "yes";
  if (!agreed) return;
  const made = await ask("key", {role, stay: isMore});
  if (made.status !== 200) {
    say(troubleWords(made), true);
    return;
  }
  known.link = {role, ...made};
  drawAgain();
}

function roleStep(role, count) {
  return element("div", {class: "step", "data-key": role}, element("h3", {}, text(`role.${role}`)),
    element("p", {class: "soft"}, text("links.devices", {n: count})),
    element("button", {type: "button", class: "main", "data-role": role, onclick: () => makeLink(role, true)}, text("links.letIn")),
    role === "SCORER" ? null : element("button", {type: "button", class: "quiet bad", onclick: () => makeLink(role, false)}, text("links.putAllOut")));
}

function shownLink() {
  const {link} = known;
  if (!link) return null;
  return element("div", {class: "shownlink"}, codePicture(link.code, text("links.codeFor", {role: text(`role.${link.role}`)})),
    element("div", {}, element("h3", {}, text("links.linkFor", {role: text(`role.${link.role}`)})), element("p", {}, text("links.shownOnce")),
      element("p", {class: "mono linktext"}, link.link),
      element("button", {type: "button", onclick: () => copy(link.link)}, text("links.copy"))));
}

async function copy(words) {
  try {
    await navigator.clipboard.writeText(words);
    say(text("links.copied"));
  } catch {
    say(text("links.copyByHand"));
  }
}

function heardWords(seconds) {
  if (seconds < MINUTE) return text("links.heardNow");
  return text("links.heardMinutes", {n: Math.floor(seconds / MINUTE)});
}

async function putOut(one) {
  const said = [text("links.linkEnds"), ...(one.unsent ? [text("links.losesUnsent", {n: one.unsent})] : [])];
  const done = await choose(text("links.putOutQuestion", {name: one.name}), said.map(words => element("p", {}, words)),
    [{value: "", label: text("common.no")}, {value: "yes", label: text("links.putOut"), look: "bad"}]);
  if (done !== "yes") return;
  await ask("revoke", {mark: one.mark});
  lookAtDevices(drawAgain);
}

function deviceRow(one) {
  return element("tr", {"data-key": one.mark}, element("th", {scope: "row"}, one.name, one.mine ? ` (${text("links.thisOne")})` : ""),
    element("td", {}, text(`role.${one.role}`)), element("td", {}, heardWords(one.heard)),
    element("td", {class: one.unsent ? "wrong" : ""}, one.unsent ? text("links.unsent", {n: one.unsent}) : ""),
    element("td", {}, one.mine ? null : element("button", {type: "button", class: "quiet bad", "aria-label": text("links.putOutQuestion", {name: one.name}),
      onclick: () => putOut(one)}, text("links.putOut"))));
}

export function linksPage() {
  const all = known.devices?.devices ?? [];
  const heads = ["links.device", "links.role", "links.heard", "links.waiting"].map(key => element("th", {scope: "col"}, text(key)));
  return element("main", {class: "steps"},
    element("section", {class: "step"}, element("h2", {}, text("links.whoMayWrite")), element("p", {}, text("links.whatLinksAre")),
      location.protocol === "https:" ? null : element("p", {class: "soft"}, text("links.plainHttp")),
      element("div", {class: "links"}, ROLES.map(role => roleStep(role, all.filter(one => one.role === role).length))), shownLink(),
      element("p", {}, text("links.boardForAll"), " ", element("a", {href: "/"}, known.devices?.board ?? "/"))),
    element("section", {class: "step"}, element("h2", {}, text("links.devicesTitle")),
      element("div", {class: "wide", tabindex: "0", role: "region", "aria-label": text("links.devicesTitle")},
        element("table", {class: "devices", "aria-label": text("links.devicesTitle")}, element("thead", {}, element("tr", {}, heads, element("td", {}))), element("tbody", {}, all.map(deviceRow))))));
}

// Offices

// What is lost sight of while the office of a class is closed: the places that are kept in each race, and the taps on devices
function stillOpen(name) {
  const places = Object.entries(state(name)?.races ?? {}).filter(([, race]) => race.unread.length).map(([number, {unread}]) =>
    `${text("common.race")} ${number}: ${text("scorer.stillUnread", {n: unread.length, marks: unread.map(one => one.mark)})}`);
  const taps = (known.devices?.devices ?? []).filter(one => one.unsent).map(one => `${one.name}: ${text("links.losesUnsent", {n: one.unsent})}`);
  return [...places, ...taps].map(words => element("p", {class: "wrong"}, words));
}

async function closeOffice(name) {
  const inside = [element("p", {}, text("office.closeMeans")), ...stillOpen(name)];
  const done = await choose(withClass(text("office.closeQuestion"), name), inside,
    [{value: "", label: text("common.no")}, {value: "yes", label: text("office.closeIt"), look: "bad"}]);
  if (done !== "yes") return;
  await ask(addressOf("close", name), {}, CLOSING);
  lookAtDevices(drawAgain);
}

// Says whether an office is open now, or why it isn't.
function sayOpened(done) {
  say(done.open ? text("office.isOpen") : done.status === 200 ? done.said.slice(-SHOWN).map(remarkWords).join("\n") : troubleWords(done), !done.open);
}

// Opens an office, or (`reopen`) closes it and opens it again. What is asked before (a change of the rules, another
// journal) is asked here. An office that is closed is opened with the rules as they were if somebody says No to others.
export async function openAsking(what, name) {
  const agreed = [], denied = [];
  for (;;) {
    say(text("office.opening"));
    const done = await ask(addressOf(what, name), {agreed, denied}, what === "reopen" ? CLOSING + OPENING : OPENING);
    if (done.status !== 409) {
      sayOpened(done);
      break;
    }
    hush();
    const asked = {...done.question, values: {...done.question.values, isReopened: what === "reopen"}};
    const answer = await agrees(name, asked, done.said, what === "open" && asked.kind === "new-rules" ? "no" : "");
    if (!answer) break;
    (answer === "yes" ? agreed : denied).push(agreedOf(done.question));
  }
}

async function openOffice(name) {
  await openAsking("open", name);
  lookAtDevices(drawAgain);
}

// What an office said, with the time of the day by the clock of its series
function timedWords(name, said) {
  const time = timeOfDay(said.at, state(name)?.zone), words = remarkWords(said);
  return time ? `${time} ${words.replace(/^\d\d:\d\d(:\d\d)? /, "")}` : words;
}

// What there is to know of an office that this web doesn't keep
function elsewhere(one) {
  if (one.is_away) return text("office.away");
  if (!one.open || one.is_kept_here) return "";
  return text(one.has_window ? "office.joined" : "office.windowGone");
}

// An office whose window has gone is open, and is to be opened all the same: that takes it over.
function officeButton(one) {
  if (one.is_away) return null;
  return one.open && one.has_window
    ? element("button", {type: "button", class: "bad", onclick: () => closeOffice(one.class)}, text("office.closeForToday"))
    : element("button", {type: "button", class: "main", onclick: () => openOffice(one.class)}, text("office.open"));
}

function stateWords(one) {
  if (one.is_away) return text("office.stateAway");
  return text(one.open ? "office.stateOpen" : "office.stateClosed");
}

function officeStep(one) {
  const look = one.open && one.has_window ? "good" : "bad", words = elsewhere(one);
  return element("section", {class: "step", "data-key": one.class},
    element("h2", {}, withClass(one.class, one.class), " ", element("span", {class: `chip ${look}`}, stateWords(one))),
    element("pre", {class: "mono linktext", tabindex: "0", "aria-label": text("office.itsWords")}, one.said.slice(-14).map(said => timedWords(one.class, said)).join("\n")),
    words ? element("p", {class: "waits"}, words) : null, element("div", {class: "acts"}, officeButton(one)));
}

// Has a series served that wasn't yet, as one whose results are final.
async function serveToo(name) {
  say(text("office.opening"));
  const done = await ask("serve", {name}, OPENING);
  sayOpened(done);
  lookAtDevices(drawAgain);
}

function besideStep(some) {
  const row = one => element("li", {"data-key": one.name}, `${one.name}: ${one.title} (${text(`results.state.${one.state}`)}) `,
    element("button", {type: "button", "data-name": one.name, onclick: () => serveToo(one.name)}, text("office.openToo", {name: one.name})));
  return element("section", {class: "step", id: "beside"}, element("h2", {}, text("office.beside")), element("ul", {}, some.map(row)));
}

export function officePage() {
  const {offices = [], beside = []} = known.devices ?? {};
  return element("main", {class: "steps"}, offices.map(officeStep), beside.length ? besideStep(beside) : null);
}
