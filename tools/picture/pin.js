
/* Which card is shown: that of the name where the mouse rests or the keyboard is, until one is pinned. */

const aside = document.querySelector("aside");
const REST = 200; // milliseconds without a move
let pinned = null; // whose card stays
let mouse = ""; // where it was last

/* Keep a card until Escape; null: none is kept or shown. */
function pin(at) {
  pinned?.removeAttribute("aria-current");
  at?.setAttribute("aria-current", "true");
  pinned = at;
  document.getElementById("pinned").hidden = at === null;
  aside.classList.toggle("pinned", at !== null);
  show(at);
}

/* Escape: the keyboard goes back from the card to its name. */
function unpin() {
  if (pinned !== null && aside.contains(document.activeElement)) pinned.focus();
  pin(null);
}

/* A mouse that moves on over other names, say to the card, does not swap it: only one at rest does. */
function point(at) {
  clearTimeout(resting);
  if (at === null || pinned !== null) return;
  if (document.querySelector(".here") === null) show(at);
  else resting = setTimeout(() => show(at), REST);
}

/* A first click pins; links lead on, with the keyboard. */
function click(event) {
  const link = event.target.closest("a"), at = event.target.closest("[data-card]");
  if (at !== null && at !== pinned && (link === null || link === at)) {
    event.preventDefault();
    pin(at);
  } else if (link !== null) {
    document.getElementById(link.hash.slice(1)).focus();
  }
}

document.addEventListener("mousemove", event => {
  const now = `${event.clientX} ${event.clientY}`;
  if (now !== mouse) point(event.target.closest("[data-card]")); // the page may scroll under a mouse that stands
  mouse = now;
});
document.addEventListener("focusin", event => {
  const at = event.target.closest("[data-card]");
  if (at !== null && pinned === null) show(at);
});
document.addEventListener("click", click);
document.querySelector("#pinned button").addEventListener("click", unpin);
document.addEventListener("keydown", event => {
  if (event.key === "Escape") unpin();
});
