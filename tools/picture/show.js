"use strict";

const code = document.getElementById("code");
const drawing = code.querySelector("svg");
const TIP = `<marker id="tip" viewBox="0 0 8 8" refX="7" refY="4" markerWidth="6" markerHeight="6" orient="auto">
  <path d="M0 0L8 4L0 8Z"/></marker>`;
const MARKS = ["lit", "here", "declares", "copying"];
let resting; // the timer of a mouse that rests on a name

/* Show the card of a name or a table's row, and light up all that belongs to its variable. */
function show(at) {
  clearTimeout(resting);
  for (const mark of MARKS)
    for (const old of document.querySelectorAll("." + mark)) old.classList.remove(mark);
  document.getElementById("hint").hidden = at !== null;
  for (const card of document.querySelectorAll(".card")) card.hidden = at === null || card.id !== at.dataset.card;
  document.getElementById("cards").scrollTop = 0;
  drawing.replaceChildren();
  if (at === null) return;
  for (const same of document.querySelectorAll(`[data-of="${at.dataset.of}"]`)) same.classList.add("lit");
  const declared = document.getElementById(at.dataset.declared);
  const copying = at.dataset.copies.split(" ").map(id => document.getElementById(id)).filter(found => found);
  for (const opener of copying) opener.classList.add("copying");
  if (declared) declared.classList.add("declares");
  at.classList.add("here");
  if (declared && declared !== at && at.matches(".name")) draw([at, ...copying, declared]);
}

/* Arrows from a name over the functions that copy its variable to the declaration. */
function draw(stops) {
  const corner = code.getBoundingClientRect();
  drawing.setAttribute("width", code.scrollWidth);
  drawing.setAttribute("height", code.scrollHeight);
  drawing.innerHTML = TIP;
  const boxes = stops.map(stop => stop.getBoundingClientRect());
  for (let i = 1; i < boxes.length; i++) {
    const [from, to] = [boxes[i - 1], boxes[i]];
    const up = from.top >= to.top, level = Math.abs(from.top - to.top) < 4;
    const [x, u] = [from, to].map(box => box.left + box.width * (level ? .5 : .8) - corner.left + code.scrollLeft);
    const y = (up ? from.top : from.bottom) - corner.top;
    const v = (up && !level ? to.bottom : to.top) - corner.top;
    const bend = level ? -16 : (v - y) / 2;
    const path = document.createElementNS("http://www.w3.org/2000/svg", "path");
    path.setAttribute("d", `M${x} ${y}C${x} ${y + bend} ${u} ${level ? v + bend : v - bend} ${u} ${v}`);
    path.setAttribute("marker-end", "url(#tip)");
    drawing.append(path);
  }
}
