// The list of subjects.
import { addressOf, readAddress } from "./address.js";
import { button, by, element, text } from "./elements.js";
import { getDefaults, listSubjects } from "./registry.js";
import { registry } from "./state.js";

const PAGE = 100; // subjects on one page of the list
const numbers = new Intl.NumberFormat("en");
const list = { found: [], first: 0 };

/** Asks for the subjects, and for the level and the mode for all of them. Draws the list again only if it is another one. */
export async function refreshList() {
  const [subjects, defaults] = await Promise.all([listSubjects(), getDefaults()]);
  const other = JSON.stringify(subjects) !== JSON.stringify(registry.subjects);
  Object.assign(registry, { subjects, defaults });
  by("level").textContent = defaults.level;
  by("mode").textContent = defaults.mode;
  by("defaults").hidden = false;
  by("defaults-tools").hidden = false;
  if (other || by("shown").textContent === "") search(list.first);
}

/** Has those in the list that have all words of the search in their names. */
function search(first) {
  const words = by("search").value.toLowerCase().split(/\s+/).filter(Boolean);
  const deleted = by("with-deleted").checked;
  const fits = (name) => words.every((word) => name.includes(word));
  list.found = registry.subjects.filter((it) => (deleted || !it.deleted) && fits(it.name.toLowerCase()));
  showPage(first < list.found.length ? first : 0);
}

function showPage(first) {
  list.first = first;
  const page = list.found.slice(first, first + PAGE);
  const focused = by("subjects").contains(document.activeElement) ? document.activeElement.getAttribute("href") : undefined;
  by("subjects").start = first + 1;
  by("subjects").replaceChildren(...page.map(subjectRow));
  by("previous").disabled = first === 0;
  by("next").disabled = first + PAGE >= list.found.length;
  by("previous").hidden = by("next").hidden = list.found.length <= PAGE;
  const [from, to, all] = [first + 1, first + page.length, list.found.length].map(numbers.format);
  by("shown").textContent = page.length === 0 ? "No subjects" : `${from} to ${to} of ${all}`;
  showEmpty(page.length === 0);
  markCurrent();
  if (focused) links().find((it) => it.getAttribute("href") === focused)?.focus();
}

/** Why nothing is in the list, and what to do then. */
function showEmpty(empty) {
  by("empty").hidden = !empty;
  if (!empty) return;
  const clear = () => {
    by("search").value = "";
    by("with-deleted").checked = true;
    search(0);
    by("search").focus();
  };
  const none = "The registry has no subjects yet: the first schema that is registered makes one.";
  const words = registry.subjects.length === 0 ? [none] : ["No subject fits. ", button("Show all", clear)];
  by("empty").replaceChildren(...words);
}

function subjectRow({ name, deleted }) {
  const link = element("a", { href: addressOf({ subject: name }), class: deleted && "deleted" }, text(name));
  if (deleted) link.append(element("small", {}, " deleted"));
  return element("li", {}, link);
}

/** Marks in the list what is chosen. */
export function markCurrent() {
  const { subject } = readAddress();
  const current = subject === undefined ? undefined : addressOf({ subject });
  for (const link of links()) {
    if (link.getAttribute("href") === current) link.setAttribute("aria-current", "true");
    else link.removeAttribute("aria-current");
  }
  makeStop(links().find((it) => it === document.activeElement) ?? document.querySelector("#subjects a[aria-current]") ?? links()[0]);
}

const links = () => [...document.querySelectorAll("#subjects a")];

/** Of the list the Tab key stops at one subject alone: where the keys were last, or else at the chosen one. */
function makeStop(link) {
  for (const it of links()) it.tabIndex = it === link ? 0 : -1;
}

/** Brings the subject that is chosen into sight, wherever it is in the list. */
export function bringIntoSight() {
  const { subject } = readAddress();
  const place = list.found.findIndex((it) => it.name === subject);
  if (place >= 0 && (place < list.first || place >= list.first + PAGE)) showPage(place - (place % PAGE));
  markCurrent();
  const link = document.querySelector("#subjects a[aria-current]");
  const side = by("subjects");
  if (!link || side.scrollHeight <= side.clientHeight) return;
  const [row, frame] = [link.getBoundingClientRect(), side.getBoundingClientRect()];
  const [above, below] = [frame.top - row.top, row.bottom - Math.min(frame.bottom, innerHeight)];
  if (above > 0) side.scrollTop -= above;
  else if (below > 0) side.scrollTop += below; // no further than it takes
}

/** The arrow keys go from the search into the list, and through it; Home and End go to its ends. */
function moveByKeys(event) {
  if (event.altKey || event.ctrlKey || event.metaKey) return;
  const stops = [by("search"), ...links()];
  const place = stops.indexOf(document.activeElement);
  const ends = place > 0 ? { Home: 1, End: stops.length - 1 } : {}; // in the search they are the text's
  const next = { ArrowDown: Math.min(place + 1, stops.length - 1), ArrowUp: Math.max(0, place - 1), ...ends }[event.key];
  if (place < 0 || next === undefined) return;
  event.preventDefault();
  stops[next].focus();
}

by("search").addEventListener("input", () => search(0));
by("with-deleted").addEventListener("change", () => search(0));
by("previous").addEventListener("click", () => showPage(list.first - PAGE));
by("next").addEventListener("click", () => showPage(list.first + PAGE));
by("list").addEventListener("keydown", moveByKeys);
by("subjects").addEventListener("focusin", ({ target }) => makeStop(target));
