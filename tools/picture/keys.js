
/* Each region of links is one stop of the Tab key; inside it the arrow keys go from link to link. */

/* Make a link the one of its region where Tab stops. */
function stopAt(link) {
  for (const old of link.closest(".roving").querySelectorAll('a[tabindex="0"]')) old.tabIndex = -1;
  link.tabIndex = 0;
}

/* Of the rows above (-1) or below (1) the nearest, there the link with the nearest beginning. */
function inNextRow(links, from, way) {
  const here = from.getBoundingClientRect();
  const places = links.map(link => {
    const box = link.getBoundingClientRect();
    return { link, rows: Math.round(way * (box.top - here.top) / here.height), aside: Math.abs(box.left - here.left) };
  });
  const beyond = places.filter(place => place.rows > 0);
  return beyond.sort((one, other) => one.rows - other.rows || one.aside - other.aside)[0]?.link;
}

/* Where a key leads from a link; nowhere for other keys, and at the ends. */
function reached(key, from) {
  const links = [...from.closest(".roving").querySelectorAll("a")].filter(link => link.getClientRects().length);
  const at = links.indexOf(from);
  switch (key) {
    case "ArrowLeft": return links[at - 1];
    case "ArrowRight": return links[at + 1];
    case "ArrowUp": return inNextRow(links, from, -1);
    case "ArrowDown": return inNextRow(links, from, 1);
    case "Home": return links[0];
    case "End": return links[links.length - 1];
  }
}

for (const region of document.querySelectorAll(".roving"))
  region.querySelectorAll("a").forEach((link, number) => { link.tabIndex = number ? -1 : 0; });
document.addEventListener("focusin", event => {
  if (event.target.matches(".roving a")) stopAt(event.target);
});
document.addEventListener("keydown", event => {
  if (!event.target.matches(".roving a") || event.altKey || event.ctrlKey || event.metaKey || event.shiftKey) return;
  const to = reached(event.key, event.target);
  if (to === undefined) return;
  event.preventDefault();
  to.focus();
});
