'use strict';
// A code for cameras, from rows of 0 and 1.

const SPACE = "http://www.w3.org/2000/svg";
// The white edge that a camera needs around a code
const EDGE = 4;

export function codePicture(rows, label) {
  const size = rows.length + 2 * EDGE;
  const picture = document.createElementNS(SPACE, "svg"), path = document.createElementNS(SPACE, "path");
  const squares = rows.map((row, y) => [...row].map((bit, x) => Number(bit) ? `M${x + EDGE} ${y + EDGE}h1v1h-1z` : "").join(""));
  path.setAttribute("d", squares.join(""));
  picture.setAttribute("viewBox", `0 0 ${size} ${size}`);
  picture.setAttribute("class", "qr");
  picture.setAttribute("role", "img");
  picture.setAttribute("aria-label", label);
  picture.append(path);
  return picture;
}
