'use strict';
// A race as a finish page shows it: what the office has, followed by the taps of this device that are still on
// their way. Nothing here scores: a place counts boats.

const PLACED = ["FINISH", "TIE", "BEFORE"];

export function emptyRace() {
  return {counts: false, order: [], codes: {}, penalties: {}, redress: {}, at: {}, by: {}, unread: []};
}

// Whether a boat has finished: she is in the order, or her corrected time alone is known.
export const isIn = (race, sail) => race.order.some(group => group.includes(sail)) || Boolean(race.untold?.includes(sail));
const groupOf = (race, sail) => race.order.findIndex(group => group.includes(sail));

// The last boat in the order, or "" if there is none
export const lastBoat = race => race.order.at(-1)?.[0] ?? "";

// What a boat holds: her code and her penalties
export const heldBy = (race, sail) => [race.codes[sail], ...(race.penalties[sail] ?? [])].filter(Boolean);

// A race by corrected time as it was at the line: its order by the clock, of one second by their taps, codes and elapsed
// times from its sheet. Nobody can tell from a corrected time alone when its boat was there.
export function atTheLine(race) {
  const rows = Object.entries(race?.sheet?.rows ?? {}), finished = rows.filter(([, row]) => typeof row.crossed === "number");
  const at = sail => race.at?.[sail] ?? 0, untold = Object.keys(race?.times ?? {}).filter(sail => !finished.some(([other]) => other === sail));
  finished.sort(([sail, one], [next, other]) => one.crossed - other.crossed || at(sail) - at(next));
  return {...emptyRace(), ...race, order: finished.map(([sail]) => [sail]), untold, start: race?.sheet?.start ?? "", waiting: waitingIn(race),
    codes: {...race?.codes, ...Object.fromEntries(rows.filter(([, row]) => row.code).map(([sail, row]) => [sail, row.code]))},
    elapsed: Object.fromEntries(finished.map(([sail, row]) => [sail, row.elapsed]))};
}

// The boats whose finishes or codes are in the sheet of a race, and not in the journal
export function waitingIn(race) {
  const isThere = (sail, row) => row.code ? race.codes?.[sail] : race.times?.[sail] !== undefined || race.codes?.[sail];
  return Object.entries(race?.sheet?.rows ?? {}).filter(([sail, row]) => !isThere(sail, row)).map(([sail]) => sail);
}

// Seconds as 1:06:45
export function duration(seconds) {
  const two = number => String(number).padStart(2, "0");
  return `${Math.floor(seconds / 3600)}:${two(Math.floor(seconds / 60) % 60)}:${two(seconds % 60)}`;
}

// A race with taps after it; `stateOf(item)` says how far each is.
export function withTaps(race, items, stateOf) {
  const found = {...emptyRace(), ...structuredClone(race ?? {}), unsent: {}};
  for (const item of items) followTap(found, item, stateOf(item));
  return found;
}

function followTap(race, item, state) {
  const [command, , sail, other] = item.line.split(" ");
  if (PLACED.includes(command)) followFinisher(race, item, state);
  else if (command === "STRIKE") removeBoat(race, sail);
  else if (command === "MARK") race.codes[sail] = other;
  else if (command === "PENALTY") (race.penalties[sail] ??= []).push(other);
  else if (command === "CLEAR") [race.codes, race.penalties, race.redress].forEach(held => delete held[sail]);
  else if (command === "START") race.start = sail ?? "…";
  else if (command === "?") race.unread.push({mark: "?", id: item.id, after: race.order.length, at: item.at, state});
  else if (command.startsWith("?")) followKnown(race, item, state);
  if (command === "MARK" || command === "PENALTY") race.unsent[sail] = state;
}

function followFinisher(race, item, state) {
  const [command, , sail, other] = item.line.split(" "), place = groupOf(race, other);
  if (isIn(race, sail) || (command !== "FINISH" && place < 0)) return;
  if (command === "FINISH") race.order.push([sail]);
  else if (command === "TIE") race.order[place].push(sail);
  else race.order.splice(place, 0, [sail]);
  race.at[sail] = item.undoes ? race.at[sail] : {FINISH: item.at, TIE: race.at[other]}[command];
  race.unsent[sail] = state;
}

// A place that was kept: whose it was, or that it was nobody's
function followKnown(race, item, state) {
  const [mark, , sail] = item.line.split(" "), gap = race.unread.find(one => one.mark === mark);
  if (!gap) return;
  race.unread = race.unread.filter(one => one !== gap);
  if (sail === "NONE" || isIn(race, sail)) return;
  race.order.splice(gap.after, 0, [sail]);
  for (const other of race.unread) if (other.after >= gap.after) other.after += 1;
  race.at[sail] = gap.at ?? item.at;
  race.unsent[sail] = state;
}

function removeBoat(race, sail) {
  race.order = race.order.map(group => group.filter(boat => boat !== sail)).filter(group => group.length);
}

// The line that takes another back, by the race as it was before it; "" if only the office can find it.
export function lineThatUndoes(line, race) {
  const [command, number, sail] = line.split(" ");
  if (PLACED.includes(command)) return `STRIKE ${number} ${sail}`;
  // By corrected time a boat gets back what the sheet had, which the office alone knows.
  if (race.elapsed) return "";
  if (command === "STRIKE") return lineThatPutsBack(race, number, sail);
  const holds = heldBy(race, sail).length > 0 || race.redress[sail] !== undefined;
  if (command === "MARK" && race.codes[sail]) return `MARK ${number} ${sail} ${race.codes[sail]}`;
  return (command === "MARK" || command === "PENALTY") && !holds ? `CLEAR ${number} ${sail}` : "";
}

// The line that puts a boat where she stands in a race.
export function lineThatPutsBack(race, number, sail) {
  const place = groupOf(race, sail), level = race.order[place]?.find(boat => boat !== sail);
  const next = race.order[place + 1]?.[0];
  if (level) return `TIE ${number} ${sail} ${level}`;
  return next ? `BEFORE ${number} ${sail} ${next}` : `FINISH ${number} ${sail}`;
}

// The finishers of a race in their order: {sail, place, isTied, at}, and between them {gap, place, at} for those
// whose sails weren't read. A boat with a code has place 0.
export function finishers(race) {
  const found = [];
  let place = 1;
  const addGaps = isHere => race.unread.filter(isHere).forEach(gap => found.push({gap, place: place++, at: gap.at}));
  race.order.forEach((group, index) => {
    addGaps(gap => gap.after === index);
    const placed = group.filter(sail => !race.codes[sail]);
    for (const sail of group) {
      found.push({sail, place: race.codes[sail] ? 0 : place, isTied: placed.length > 1, at: race.at[sail]});
    }
    place += placed.length;
  });
  addGaps(gap => gap.after >= race.order.length);
  return found;
}

// The place of a boat in the order; 0 if she has a code or isn't there
export function placeOf(race, sail) {
  return finishers(race).find(row => row.sail === sail)?.place ?? 0;
}
