// The schema of an id, and the versions that have it.
import { addressOf, linkOf } from "./address.js";
import { button, by, copyButton, element, text } from "./elements.js";
import { getById, Refusal } from "./registry.js";
import { fileOf, makeSchemaView } from "./schema.js";

const showSchema = makeSchemaView(by("identity-schema"));
const PIECE = 100; // versions that are shown at once
let id;

export async function showIdentity(choice, signal, again) {
  if (!again || choice.id !== id) begin(choice.id);
  const found = await getById(id, signal).catch(missing);
  if (!found) return;
  by("identity-missing").hidden = true;
  drawVersions(found.versions, PIECE);
  showSchema({ text: found.schema, name: `schema id ${id}`, file: fileOf("schema", id) });
  by("identity-body").hidden = false;
}

function begin(chosen) {
  id = chosen;
  by("identity-title").textContent = `Schema id ${id}`;
  by("identity-title").focus();
  by("identity-number").value = id;
  by("identity-body").hidden = true;
  by("identity-missing").hidden = true;
}

function missing(error) {
  if (!(error instanceof Refusal) || error.status !== 404) throw error;
  by("identity-body").hidden = true;
  by("identity-missing").hidden = false;
  by("identity-missing").textContent = `No schema has the id ${id}. The registry says: ${error.code} ${error.message}`;
}

/** The first versions, and a button for more: an id may be that of thousands. */
function drawVersions(versions, end) {
  by("identity-versions").replaceChildren(...versions.slice(0, end).map(versionRow));
  const more = button(`${end} of ${versions.length} are shown: show more`, () => {
    drawVersions(versions, end + PIECE);
    by("identity-versions").children[end].querySelector("a").focus();
  });
  by("identity-more").replaceChildren(...(end < versions.length ? [more] : []));
}

function versionRow({ subject, version, deleted }) {
  const link = element("a", { href: addressOf({ subject, version }), class: deleted && "deleted" }, text(subject), `, version ${version}`);
  if (deleted) link.append(element("small", {}, " deleted"));
  return element("li", {}, link);
}

by("identity-tools").append(copyButton("Copy link", () => linkOf({ id }), "Copy link to this schema id"));
by("find-identity").addEventListener("submit", (event) => {
  event.preventDefault();
  const address = addressOf({ id: by("identity-number").value.trim() });
  if (location.hash === address) by("identity-title").focus();
  location.hash = address;
});
