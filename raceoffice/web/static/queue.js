'use strict';
// The taps of this device that the office hasn't answered yet. Each is kept on the device before it is sent, is
// sent in order within its class, and goes when the office has answered it and its race shows it: until then a
// page that is loaded again without a connection needs it. Its identity stays the same however often it is sent:
// the office does it once.
import {ask, comeIn, moment, newId} from "./office.js";
import {loadRest, troubleOf} from "./texts.js";

const PREFIX = "tap:";
const WAITING = ["unsent", "sending", "asked"];
// The lines of which the moment matters
const TIMED = /^(FINISH|\?) |^START \d+$/;
// Milliseconds until a tap is tried again: 0.5 s, 1 s, ... 5 s
const pauseAfter = tries => Math.min(5000, 500 * 2 ** tries);

// Why a tap isn't taken, in words that this page fetches only then
async function inWords(said) {
  const [{troubleWords}] = await Promise.all([import("./remark-words.js"), loadRest()]);
  return troubleWords(said);
}

// The taps that were kept when the page was left
function keptItems() {
  const keys = Object.keys(localStorage).filter(key => key.startsWith(PREFIX)).sort();
  return keys.map(key => itemOf(key, localStorage.getItem(key))).filter(Boolean);
}

// A tap as it was kept; null if it is none. One that was on its way is sent again, and so is one of which nothing is asked.
function itemOf(key, kept) {
  let item = null;
  try { item = JSON.parse(kept); } catch { /* not a tap */ }
  if (typeof item?.line !== "string" || typeof item.class !== "string") return null;
  const isHeld = item.state === "asked" && (item.question || item.clock?.others);
  return {agreed: [], ...item, key, state: WAITING.includes(item.state) && !isHeld ? "unsent" : item.state};
}

export class Queue {
  // `told(item)` is called whenever an item has another state.
  constructor(told) {
    this.told = told;
    this.tries = 0;
    this.busy = new Set();
    this.isFull = false;
    this.items = keptItems();
    addEventListener("storage", ({key, newValue}) => this.takeOver(this.items.find(item => item.key === key), newValue));
  }

  // Takes over what another tab has done with an item.
  takeOver(item, kept) {
    if (!item) return;
    const found = itemOf(item.key, kept);
    Object.assign(item, {clock: undefined}, found ?? {state: "gone"});
    // This tab may have kept it again just before it heard of that.
    if (found) this.told(item);
    else this.drop(item);
  }

  // What waits for an answer of the office, or of somebody here
  get unsent() {
    return this.items.filter(item => WAITING.includes(item.state));
  }

  of(name) {
    return this.items.filter(item => item.class === name);
  }

  find(id) {
    return this.items.find(item => item.id === id);
  }

  // A key after those of all taps that are kept, whatever the clock says
  newKey(id) {
    const keys = [...Object.keys(localStorage), ...this.items.map(item => item.key)].filter(key => key.startsWith(PREFIX));
    const last = Math.max(0, ...keys.map(key => Number(key.slice(PREFIX.length).split(".")[0])));
    return `${PREFIX}${String(last + 1).padStart(15, "0")}.${id}`;
  }

  add(values) {
    const id = newId(), item = {id, ...moment(), agreed: [], state: "unsent", key: this.newKey(id), ...values};
    this.items.push(item);
    this.keep(item);
    this.told(item);
    this.send();
    return item;
  }

  // A device without room says so: the tap is sent all the same, but a page loaded again would lose it.
  keep(item) {
    try { localStorage.setItem(item.key, JSON.stringify(item)); } catch { this.isFull = true; }
  }

  drop(item) {
    localStorage.removeItem(item.key);
    this.items = this.items.filter(other => other !== item);
    // There may be room for the others now.
    const hadNoRoom = this.isFull;
    this.isFull = false;
    if (hadNoRoom) this.items.forEach(other => this.keep(other));
    this.told(item);
  }

  change(item, values) {
    if (!this.items.includes(item)) return;
    Object.assign(item, values);
    this.keep(item);
    this.told(item);
  }

  // Sends what waits: the taps of one class one after another.
  send() {
    for (const name of new Set(this.items.map(item => item.class))) this.sendClass(name);
  }

  async sendClass(name) {
    if (this.busy.has(name)) return;
    this.busy.add(name);
    try {
      let mayFollow = true;
      while (mayFollow) {
        const item = this.of(name).find(other => other.state === "unsent" || other.state === "asked");
        // What somebody has to answer holds up all that come after it: their places depend on it.
        mayFollow = item !== undefined && item.state !== "asked" && await this.sendItem(item);
      }
    } finally {
      // Nothing goes wrong here; but if it did, what was on its way would be sent again.
      for (const item of this.of(name)) if (item.state === "sending") item.state = "unsent";
      this.busy.delete(name);
    }
  }

  // Settles the moment of an item once the office was heard; whether it goes. If it isn't known, and matters, somebody is
  // asked.
  async isMomentKnown(item) {
    if (item.clock && !item.clock.others) await comeIn();
    if (!item.clock || !this.items.includes(item)) return true;
    if (!item.clock.others) return this.answered(item, {status: 0});
    if (TIMED.test(item.line)) this.change(item, {state: "asked"});
    return item.state !== "asked";
  }

  // Sends one item; whether the next may follow.
  async sendItem(item) {
    if (!await this.isMomentKnown(item)) return false;
    // Somebody may have dropped it meanwhile, here and below.
    if (!this.items.includes(item)) return true;
    // From now on the office may have taken it, whatever becomes of the answer.
    this.change(item, {state: "sending", isSent: true});
    const {id, line, at, seen, behind, agreed, denied, by_clock, undoes, was, series} = item;
    const said = await ask(`line/${encodeURIComponent(item.class)}`, {id, line, at, seen, behind, agreed, denied, by_clock, undoes, was, series});
    return !this.items.includes(item) || this.answered(item, said);
  }

  // Puts what was said of an item into the words of this page.
  async translate(item, said) {
    const {words} = item, own = await inWords(said).catch(() => words);
    if (item.words === words) this.change(item, {words: own});
  }

  // Takes over an answer of the office; whether the next tap may follow.
  answered(item, said) {
    if (said.status === 200 && said.outcome) {
      this.tries = 0;
      this.change(item, {state: said.outcome === "refused" ? "refused" : "done", answer: said.answer,
        words: (said.said ?? []).map(one => one.text).join(" ").trim(), entry: said.entry, version: said.version, mark: said.mark});
      return true;
    }
    if (said.status === 409 && said.question) {
      this.change(item, {state: "asked", question: said.question, isWhere: said.outcome === "elsewhere", byClock: said.clock});
      return false;
    }
    if (said.status === 422 || said.status === 400) {
      this.change(item, {state: "refused", words: said.words});
      this.translate(item, said);
      return true;
    }
    // Nobody has answered, or the office is away: the same again, later.
    this.change(item, {state: "unsent", words: said.status ? troubleOf(said) : ""});
    if (said.said) this.translate(item, said);
    setTimeout(() => this.send(), pauseAfter(this.tries++));
    return false;
  }
}
