// Schemas drawn as trees that fold. A tree is one stop of the Tab key, and the arrow keys go through it.
import { label, parts } from "./avro.js";
import { element, text } from "./elements.js";

const PIECE = 500; // how many parts of a type are drawn at once
const OPEN = 60; // a schema is drawn unfolded as far as it has no more rows than this
const unfolders = new WeakMap(); // for each part that folds or is the end of a piece, what draws what is below or behind it
let rows = 0;

/**
 * A schema's tree, called `show.name`. Where a clash is given, the parts on the way `show.way` are unfolded, and its end is marked and
 * says `show.why`. `show.marks` has a kind and words for fields, symbols and types: these are unfolded and marked too.
 */
export function drawTree(type, show) {
  const marks = show.marks ?? new Map();
  const drawing = { budget: OPEN, marks, open: waysTo(type, marks), why: show.why };
  const tree = element("ul", { class: "tree", role: "tree", "aria-label": show.name }, drawPart({ type }, show.way, drawing));
  tree.querySelector("[role=treeitem]").tabIndex = 0;
  tree.addEventListener("keydown", moveByKeys);
  tree.addEventListener("click", foldByClick);
  tree.addEventListener("focusin", ({ target }) => makeStop(tree, target));
  return tree;
}

/** The types that have something marked below them. A use of a type has nothing below: what it names is marked where it is defined. */
function waysTo(type, marks) {
  const open = new Set();
  const look = (part) => {
    const below = part.type && part.type.kind !== "use" ? parts(part.type) : [];
    const found = marks.size > 0 && below.map(look).includes(true);
    if (found) open.add(part.type);
    return found || markOf(part, marks) !== undefined;
  };
  look({ type });
  return open;
}

const markOf = (part, marks) => marks.get(part) ?? marks.get(part.type);

// ---- parts

function drawPart(part, way, drawing) {
  const below = part.type ? parts(part.type) : [];
  const here = way !== undefined && below[way[0]] === undefined;
  const row = element("div", { class: "row", id: `row-${(rows += 1)}` }, ...titleOf(part, here, drawing), ...factsOf(part));
  if (here) row.append(element("span", { class: "why" }, drawing.why));
  drawing.budget -= 1;
  const item = element("li", { role: "treeitem", tabindex: -1, "aria-labelledby": row.id }, row);
  if (below.length > 0) makeFold(item, part, below, here ? undefined : way, drawing);
  return item;
}

/** What is below is drawn once it is unfolded, so a type inside itself has no end and needs none. */
function makeFold(item, part, below, way, drawing) {
  item.setAttribute("aria-expanded", "false");
  unfolders.set(item, () => {
    const group = element("ul", { role: "group", class: part.type.kind === "enum" && "symbols" });
    item.append(group);
    drawPiece(group, part.type, below, way, drawing);
  });
  if (way || drawing.open.has(part.type) || opensByItself(part, below, drawing)) setFold(item, true);
}

/** The root does, and what then fits, but no type inside itself and no union that its label says already. */
function opensByItself({ name, type }, below, { budget }) {
  const said = type.kind === "union" && below.every(({ type }) => type.kind === "use" || parts(type).length === 0);
  return name === undefined || (type.kind !== "use" && !said && below.length < budget);
}

/** Draws some of a type's parts, or as many as it takes to have a clash and what is marked, and a part that draws more. */
function drawPiece(group, type, below, way, drawing) {
  const begun = group.childElementCount;
  const marked = begun > 0 ? -1 : below.findLastIndex((part) => drawing.open.has(part.type) || markOf(part, drawing.marks));
  const end = Math.min(below.length, Math.max(begun + PIECE, (way?.[0] ?? 0) + 1, marked + 1));
  for (let place = begun; place < end; place += 1) {
    group.append(drawPart(below[place], way?.[0] === place ? way.slice(1) : undefined, drawing));
  }
  if (end === below.length) return;
  const words = `${end} of ${below.length} are shown: show more`;
  const more = element("li", { role: "treeitem", class: "more", tabindex: -1 }, element("div", { class: "row" }, words));
  unfolders.set(more, () => {
    more.remove();
    drawPiece(group, type, below, way, drawing);
    group.children[end].focus();
  });
  group.append(more);
}

// ---- words

function titleOf(part, here, { marks }) {
  const { name, type, isPlace } = part;
  const title = name === undefined ? [] : [element(isPlace ? "span" : "b", {}, text(name))];
  if (type) title.push(name === undefined ? "" : ": ", element("span", { class: "type" }, text(label(type))));
  const mark = here ? { kind: "broken" } : markOf(part, marks);
  const words = element(mark ? "mark" : "span", { class: mark?.kind }, ...title);
  return mark?.words ? [words, element("span", { class: `note ${mark.kind}` }, text(mark.words))] : [words];
}

/** What else is said of a field and of its type: documentation, defaults, aliases and whatever was added. */
function factsOf({ type, said = [], aliases = [] }) {
  const names = [...aliases, ...(type?.aliases ?? [])];
  const ofType = (type?.said ?? []).filter(([member]) => member !== "logicalType");
  const facts = [...factsOfBoth(said, ofType, "field"), ...factsOfBoth(ofType, said, type?.kind)];
  return names.length === 0 ? facts : [...facts, element("span", { class: "fact" }, "aliases ", text(names.join(", ")))];
}

/** Where a field and its type say the same, whose it is: an enum has a default of its own. */
function factsOfBoth(said, others, owner) {
  const both = new Set(others.map(([member]) => member));
  return said.map(([member, value]) => factOf(member, value, both.has(member) ? `${owner}'s ` : ""));
}

function factOf(member, value, whose) {
  if (member === "doc" && typeof value === "string") return element("span", { class: "fact doc" }, text(value));
  return element("span", { class: "fact" }, whose, text(member), " ", text(JSON.stringify(value)));
}

// ---- folding and moving

function setFold(item, open) {
  if (open && item.children.length === 1) unfolders.get(item)();
  item.setAttribute("aria-expanded", `${open}`);
  if (item.children[1]) item.children[1].hidden = !open;
}

function turn(item) {
  if (item.classList.contains("more")) unfolders.get(item)();
  else if (item.hasAttribute("aria-expanded")) setFold(item, item.getAttribute("aria-expanded") !== "true");
}

function foldByClick({ target }) {
  const row = target.closest(".row");
  if (!row || getSelection().type === "Range") return; // somebody marks words to copy them
  row.parentElement.focus();
  turn(row.parentElement);
}

/** Of a tree's parts the Tab key stops at one alone, where the keys were last. */
function makeStop(tree, item) {
  if (item.getAttribute("role") !== "treeitem") return;
  for (const it of tree.querySelectorAll("[tabindex='0']")) it.tabIndex = -1;
  item.tabIndex = 0;
}

function moveByKeys(event) {
  const item = event.target.closest("[role=treeitem]");
  if (!item || event.altKey || event.ctrlKey || event.metaKey) return;
  const act = MOVES[event.key];
  if (!act) return;
  event.preventDefault();
  act(item, event.currentTarget)?.focus();
}

const stops = (tree) => [...tree.querySelectorAll("[role=treeitem]")].filter((it) => it.closest("[hidden]") === null);
const isOpen = (item) => item.getAttribute("aria-expanded") === "true";

const MOVES = {
  ArrowDown: (item, tree) => stops(tree)[stops(tree).indexOf(item) + 1],
  ArrowUp: (item, tree) => stops(tree)[stops(tree).indexOf(item) - 1],
  Home: (item, tree) => stops(tree)[0],
  End: (item, tree) => stops(tree).at(-1),
  Enter: (item) => turn(item),
  " ": (item) => turn(item),
  ArrowRight(item) {
    if (item.getAttribute("aria-expanded") === "false") return setFold(item, true);
    return isOpen(item) ? item.children[1].firstElementChild : undefined;
  },
  ArrowLeft(item) {
    if (isOpen(item)) return setFold(item, false);
    return item.parentElement.closest("[role=treeitem]");
  },
};
