'use strict';
// Keeps the finish page, so that it opens without a connection. Browsers run this over HTTPS alone, or on the
// computer itself. What is asked of the office is never kept.
//
// A page has all its files of one release. They are fetched before this worker is used, whole or not at all, and nothing is
// put to them later. A newer worker waits until no page has the files of this one.
const FILES = ["base.css", "finish.css", "finish.webmanifest", "elements.js", "texts.js", "office.js", "dialogs.js", "sails.js", "questions.js",
  "queue.js", "race-view.js", "finish-state.js", "finish-taps.js", "finish-answers.js", "finish-grid.js", "finish-list.js", "finish-top.js",
  "finish-dock.js", "finish-start.js", "finish-rows.js", "finish.js", "remark-words.js", "rules-words.js", "moves.js", "sheet-why.js", "texts/de.json", "texts/en.json", "texts/es.json", "texts/fr.json",
  "texts/it.json", "texts/nl.json"];
// The office puts in what tells its release from others, and each file from what it was before.
const RELEASE = {name: "", tags: {}};
const KEPT = `office-${RELEASE.name}`, PAGE = "/office/finish/";
const PATHS = [PAGE, ...FILES.map(name => `/office/static/${name}`)];

// The first characters of the SHA-256 of a file, as the office writes them
async function tagOf(data) {
  return btoa(String.fromCharCode(...new Uint8Array(await crypto.subtle.digest("SHA-256", data)))).slice(0, 8);
}

async function fetched(path) {
  const answer = await fetch(path, {cache: "no-cache"});
  if (!answer.ok || await tagOf(await answer.clone().arrayBuffer()) !== RELEASE.tags[path]) throw new Error(`${path} is of another release`);
  return [path, answer];
}

async function install() {
  const answers = await Promise.all(PATHS.map(fetched)), store = await caches.open(KEPT);
  await Promise.all(answers.map(([path, answer]) => store.put(path, answer)));
}

async function activate() {
  const old = (await caches.keys()).filter(name => name !== KEPT);
  await Promise.all(old.map(name => caches.delete(name)));
  await clients.claim();
}

async function answer(request) {
  const {waiting} = registration;
  // A page that is loaded while no other is open begins with the newer worker.
  if (waiting && request.mode === "navigate" && (await clients.matchAll()).length < 2) {
    waiting.postMessage("begin");
    return new Response("", {headers: {"Refresh": "0"}});
  }
  const store = await caches.open(KEPT);
  return await store.match(request, {ignoreSearch: true, ignoreVary: true}) ?? fetch(request);
}

addEventListener("install", event => event.waitUntil(install()));
addEventListener("activate", event => event.waitUntil(activate()));
addEventListener("message", () => skipWaiting());
addEventListener("fetch", event => {
  const {method, url} = event.request;
  if (method === "GET" && PATHS.includes(new URL(url).pathname)) event.respondWith(answer(event.request));
});
