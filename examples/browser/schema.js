// One schema: a field to find in it, its tree, and its JSON to take along.
import { findFields, layOutIfJson, readSchema } from "./avro.js";
import { button, choiceOf, copyButton, download, element, labelled } from "./elements.js";
import { drawTree } from "./tree.js";

const NAMED = 5; // found fields that are named in words

/** The word that fields are looked for with, in all schemas that are shown. */
export const finding = { word: "" };

/** The marks for the fields with this word, or those given. */
export function marksOfFound(type, marks = new Map()) {
  const both = new Map(marks);
  if (finding.word === "") return both;
  for (const { field } of findFields(type, finding.word)) both.set(field, { ...both.get(field), kind: "found" });
  return both;
}

/** Builds the view in `place`; what it gives shows a schema in it. `found` is called when another field is looked for. */
export function makeSchemaView(place, found = () => {}) {
  const search = element("input", { type: "search", autocomplete: "off", autocapitalize: "off", spellcheck: "false" });
  const told = element("p", { class: "fact", role: "status" });
  const tree = element("div", { class: "drawn" });
  const json = element("div", {});
  const view = { search, told, tree, json, kept: "" };
  search.addEventListener("input", () => {
    finding.word = search.value.trim();
    drawFound(view);
    found();
  });
  search.addEventListener("keydown", (event) => goToFound(event, tree));
  const details = element("details", { class: "json" }, element("summary", {}, "Schema JSON"), json);
  place.append(labelled("Find a field", search, { class: "finder" }), told, tree, details);
  return (schema) => showSchema(view, schema);
}

/** `schema` has a `text`, a `name` for the tree and a `file`'s name. */
function showSchema(view, schema) {
  Object.assign(view, schema, { type: readSchema(schema.text) });
  view.search.value = finding.word;
  drawFound(view);
  drawJson(view, true);
}

function drawFound(view) {
  view.tree.replaceChildren(drawTree(view.type, { name: view.name, marks: marksOfFound(view.type) }));
  const found = finding.word === "" ? [] : findFields(view.type, finding.word);
  const places = found.slice(0, NAMED).map((it) => it.where).join(", ");
  const more = found.length > NAMED ? " and others" : "";
  const count = { 0: "No field has this in its name.", 1: `1 field: ${places}` }[found.length];
  view.told.textContent = finding.word === "" ? "" : count ?? `${found.length} fields: ${places}${more}`;
}

/** From the search the Enter key goes to the first field that was found, and from there to the next. */
function goToFound(event, tree) {
  if (event.key !== "Enter") return;
  const item = tree.querySelector("mark.found")?.closest("[role=treeitem]");
  item?.focus();
  item?.scrollIntoView({ block: "nearest" });
}

function drawJson(view, indented) {
  const text = indented ? layOutIfJson(view.text) : view.text;
  const options = [["indented", "Indented"], ["kept", "As the registry keeps it"]];
  const choice = choiceOf("Form", `form-${view.file}`, options, indented ? "indented" : "kept", (key) => {
    drawJson(view, key === "indented");
    view.json.querySelector(":checked").focus();
  });
  const buttons = [copyButton("Copy", () => text), button("Download", () => download(`${view.file}.avsc`, text))];
  const pre = element("pre", { tabindex: 0, "aria-label": `Schema JSON of ${view.name}` }, text);
  view.json.replaceChildren(choice, element("div", { class: "buttons" }, ...buttons), pre);
}

/** A file's name for a version: what may not be in one becomes a dash. */
export const fileOf = (...parts) => parts.join("-").replaceAll(/[^\w.-]+/g, "-").slice(0, 120);
