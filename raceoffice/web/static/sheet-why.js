'use strict';
// Why the time of a boat is in the sheet of times alone: fetched once somebody asks.
import {loadRest, text} from "./texts.js";
import {troubleWords} from "./remark-words.js";

export async function showWhy(part, {why, rows}, sail) {
  const said = [...why, ...rows[sail]?.why ?? []], show = words => { part.textContent = `${text("finish.inSheet")}: ${words}`; };
  if (!said.length) return;
  show(said.map(one => one.text).join("\n"));
  await loadRest();
  show(troubleWords({said}));
}
