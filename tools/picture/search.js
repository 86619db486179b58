
/* The search: names that have the field's text in them are listed, and stand out in the script. */

const field = document.querySelector("#search input");
const entries = [...document.querySelectorAll("#found li")];

/* The link that Enter takes: of a name that begins with the text, else the first. */
function firstFound() {
  const links = entries.filter(entry => !entry.hidden).map(entry => entry.querySelector("a"));
  const begins = link => link.textContent.toLowerCase().startsWith(field.value.toLowerCase());
  return links.find(begins) ?? links[0];
}

function search() {
  const text = field.value.toLowerCase();
  const has = name => text !== "" && name.toLowerCase().includes(text);
  for (const entry of entries) entry.hidden = !has(entry.querySelector("code").textContent);
  for (const name of code.querySelectorAll(".name")) name.classList.toggle("found", has(name.firstChild.data));
  const count = entries.filter(entry => !entry.hidden).length;
  document.querySelector("#search [role=status]").textContent = text && `${count} found`;
  if (count) stopAt(firstFound());
}

/* Enter goes to the first; the key ends here, not on the name where the keyboard is then. */
function takeFirst(event) {
  event.preventDefault();
  firstFound()?.click();
}

/* Escape empties the field, and the keyboard goes back to the script; a pinned card stays. */
function leaveSearch(event) {
  event.stopPropagation();
  field.value = "";
  search();
  code.querySelector('a[tabindex="0"]')?.focus();
}

document.getElementById("search").hidden = false;
field.addEventListener("input", search);
field.addEventListener("keydown", event => {
  if (event.key === "Enter") takeFirst(event);
  if (event.key === "Escape") leaveSearch(event);
});
document.getElementById("found").addEventListener("click", () => pin(null));
document.addEventListener("keydown", event => {
  if (event.key !== "/" || event.target === field || event.altKey || event.ctrlKey || event.metaKey) return;
  event.preventDefault();
  field.focus();
  field.select();
});
