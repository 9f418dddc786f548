'use strict';
// Elements of a page: made, and put in place so that those that are there already stay.

const HANDLERS = ["onclick", "oninput", "onchange", "onsubmit", "onfocus", "onkeydown", "oncancel", "onpointerdown",
  "onpointermove", "onpointerup", "onpointercancel", "ondragover", "ondragleave", "ondrop"];
// What somebody at the page changes, and a new drawing must not change back.
const OWN = ["open"];

export function byId(name) {
  return document.getElementById(name);
}

// Says what went wrong, while the rest goes on.
export function tellFault(fault) {
  setTimeout(() => { throw fault; });
}

// What `make` makes of each of several; one of which something goes wrong is left out.
export function each(several, make) {
  return several.flatMap((one, at) => {
    try { return [make(one, at)]; } catch (fault) { tellFault(fault); return []; }
  });
}

// An element with its attributes, and with what it does (onclick ..). A text in it is never taken for HTML,
// whatever an entry list has in it.
export function element(tag, properties = {}, ...inside) {
  const made = document.createElement(tag);
  for (const [name, value] of Object.entries(properties)) {
    if (value === undefined || value === null || value === false) continue;
    if (name.startsWith("on")) made[name] = value;
    else made.setAttribute(name, value === true ? "" : String(value));
  }
  made.append(...shown(inside));
  return made;
}

// What of a list is shown: not what is null, false or undefined.
function shown(inside) {
  return inside.flat(Infinity).filter(part => part !== null && part !== undefined && part !== false);
}

function nodes(inside) {
  return shown(inside).map(part => part instanceof Node ? part : document.createTextNode(String(part)));
}

const keyOf = node => node.dataset?.key;
const isAlike = (one, other) => one.nodeName === other.nodeName && !keyOf(one) && !keyOf(other);

// Makes these the children of an element. A child that is there already stays the same node, so that a finger,
// the focus and a screen reader stay where they are: one with a data-key by that, others by their places.
export function fill(parent, ...inside) {
  const wanted = nodes(inside), keys = new Set(wanted.map(keyOf).filter(Boolean));
  const focused = document.activeElement;
  for (const child of [...parent.childNodes]) {
    if (keyOf(child) && !keys.has(keyOf(child))) child.remove();
  }
  const held = new Map([...parent.childNodes].filter(keyOf).map(child => [keyOf(child), child]));
  let place = parent.firstChild;
  for (const fresh of wanted) {
    const old = oldFor(fresh, place, held);
    if (!old) {
      parent.insertBefore(fresh, place);
      continue;
    }
    if (old === place) place = place.nextSibling;
    else parent.insertBefore(old, place);
    takeOver(old, fresh);
  }
  while (place) {
    const next = place.nextSibling;
    place.remove();
    place = next;
  }
  if (focused !== document.activeElement && focused?.isConnected) focused.focus({preventScroll: true});
  return parent;
}

// The node that is there for a fresh one: that of its key, or the one at its place if it is like it.
function oldFor(fresh, place, held) {
  const old = keyOf(fresh) ? held.get(keyOf(fresh)) : place;
  if (!old || old.nodeName !== fresh.nodeName) return null;
  return keyOf(fresh) || isAlike(old, fresh) ? old : null;
}

// Gives a node what a fresh one has. What was typed into a field stays.
function takeOver(old, fresh) {
  if (old.nodeType === Node.TEXT_NODE) {
    if (old.data !== fresh.data) old.data = fresh.data;
    return;
  }
  if (old.namespaceURI !== document.documentElement.namespaceURI) {
    if (!old.isEqualNode(fresh)) old.replaceWith(fresh);
    return;
  }
  for (const {name} of [...old.attributes]) {
    if (!fresh.hasAttribute(name) && !OWN.includes(name)) old.removeAttribute(name);
  }
  for (const {name, value} of fresh.attributes) {
    if (old.getAttribute(name) !== value && !OWN.includes(name)) old.setAttribute(name, value);
  }
  for (const name of HANDLERS) old[name] = fresh[name];
  fill(old, ...fresh.childNodes);
}
