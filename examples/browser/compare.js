// What changed between two versions: as a list, as two trees, as two texts.
import { addressOf, linkOf, readAddress } from "./address.js";
import { layOutIfJson, readSchema } from "./avro.js";
import { differences } from "./changes.js";
import { by, choiceOf, copyButton, element, text } from "./elements.js";
import { drawLines } from "./lines.js";
import { marksOfFound } from "./schema.js";
import { shown, signal } from "./state.js";
import { drawTree } from "./tree.js";

const FORMS = [["list", "List"], ["trees", "Trees side by side"], ["texts", "JSON side by side"]];
const SIGNS = { "+": ["added", "added"], "-": ["removed", "removed"], "~": ["changed", ""] };

let older; // the version that the shown one is compared with

/** Compares the version that is shown with the one that the address names, or else with the one before. */
export async function showComparison(choice, getVersion) {
  const others = shown.versions.filter((it) => it.number !== shown.version).toReversed();
  const wanted = others.find((it) => `${it.number}` === choice.since) ?? others.find((it) => it.number < shown.version) ?? others.at(-1);
  by("since").replaceChildren(...others.map(optionOf));
  by("since-label").hidden = by("forms").hidden = others.length === 0;
  drawForms(FORMS.some(([form]) => form === choice.as) ? choice.as : "list");
  older = undefined;
  if (!wanted) return tell("There is no other version.");
  by("since").value = `${wanted.number}`;
  tell("Waiting for the other version.");
  older = await getVersion(shown.subject, wanted.number, signal());
  drawComparison();
}

function optionOf({ number, deleted }) {
  return element("option", { value: number }, `version ${number}${deleted ? ", deleted" : ""}`);
}

function tell(words) {
  by("changes").replaceChildren(element("p", {}, words));
}

function drawForms(form) {
  by("subject-body").dataset.form = form;
  const keep = by("forms").contains(document.activeElement);
  const link = copyButton("Copy link", comparisonLink, "Copy link to this comparison");
  by("forms").replaceChildren(choiceOf("Show", "form", FORMS, form, (as) => goTo({ as })), link);
  if (keep) by("forms").querySelector(":checked")?.focus();
}

/** Another comparison has an address of its own, but is no further step back. */
export function goTo(change) {
  const { subject, as } = readAddress();
  const choice = { subject, version: shown.version, since: by("since").value || undefined, as, ...change };
  location.replace(addressOf(choice));
}

function comparisonLink() {
  const { subject, version } = shown;
  return linkOf({ subject, version, since: by("since").value || undefined, as: by("subject-body").dataset.form });
}

/** Draws both versions again, with the marks of what changed and of the field that is looked for. */
export function drawComparison() {
  if (!older) return;
  const [before, after] = [readSchema(older.schema), shown.type];
  const rows = differences(before, after);
  const names = [`Version ${older.version}`, `Version ${shown.version}`];
  const draw = { trees: () => drawTrees(rows, before, after, names), texts: () => drawTexts(names) };
  const nothing = element("p", {}, "Nothing changed.");
  const drawn = (draw[by("subject-body").dataset.form] ?? (() => drawList(rows)))();
  by("changes").replaceChildren(...(rows.length === 0 ? [nothing] : []), drawn);
}

function drawList(rows) {
  return element("ul", { class: "changes" }, ...rows.map(changeRow));
}

function changeRow({ sign, where, what, from, to }) {
  const [kind, word] = SIGNS[sign];
  const values = [from, to].filter((it) => it !== undefined).map((it) => element("span", { class: "type" }, text(`${it}`)));
  if (values.length === 2) values.splice(1, 0, " became ");
  const place = where && element("b", {}, text(where));
  return element("li", { class: kind }, place, where && " ", `${what} ${word}`.trim(), ": ", ...values);
}

function drawTrees(rows, before, after, names) {
  const marks = marksOf(rows);
  const side = (name, type, ofSide) =>
    element("section", { class: "side" }, element("h4", {}, name), drawTree(type, { name, marks: marksOfFound(type, ofSide) }));
  return element("div", { class: "sides" }, side(names[0], before, marks.old), side(names[1], after, marks.young));
}

/** For both schemas what is marked in them, and the words beside it. */
function marksOf(rows) {
  const marks = { old: new Map(), young: new Map() };
  for (const { sign, what, from, to, old, young } of rows) {
    const [kind, word] = SIGNS[sign];
    add(marks.old, old, kind, sign === "~" ? `${what}: ${from}` : word);
    add(marks.young, young, kind, sign === "~" ? `${what}: ${to}, was ${from}` : word);
  }
  return marks;
}

function add(marks, part, kind, words) {
  if (!part) return;
  const before = marks.get(part);
  marks.set(part, { kind, words: before ? `${before.words}; ${words}` : words });
}

function drawTexts(names) {
  const [before, after] = [older.schema, shown.text].map(layOutIfJson);
  return drawLines(before, after, names);
}

by("since").addEventListener("change", () => goTo({}));
