'use strict';
// Sails and codes: they are the same in every language.

export const CODES = ["OCS", "UFD", "BFD", "DNS", "DNF", "RET", "DNC"];
export const PENALTIES = ["ZFP", "SCP"];
export const JURY_CODES = ["DSQ", "DNE"];
const HARD = ["OCS", "UFD", "BFD", ...JURY_CODES];
const POINTS = ["ZFP", "SCP", "DPI", "PRP", "T1"];
const GIVEN = ["RDG", "DUTY"];

// A sail's letters and the rest: GBR and 101
export function parts(sail) {
  const [, letters, rest] = /^(\D*)(.*)$/.exec(sail);
  return {letters, rest};
}

// A sail as it is read: GBR 101
export function spaced(sail) {
  const {letters, rest} = parts(sail);
  return letters && rest && !/[?-]/.test(sail) ? `${letters} ${rest}` : sail;
}

// The digits that somebody would press for a boat, or all of her sail if it has none
export function short(sail) {
  return parts(sail).rest || sail;
}

export function numberOf(sail) {
  return Number(parts(sail).rest.replace(/\D/g, "") || 0);
}

// The look of a code
export function kindOf(code) {
  if (HARD.includes(code)) return "hard";
  if (POINTS.includes(code)) return "points";
  return GIVEN.includes(code) ? "given" : "";
}
