// A subject: its versions, one of them, and what is asked about it.
import { addressOf, linkOf } from "./address.js";
import { check, clearVerdict, makeCheckForm } from "./check.js";
import { drawComparison, showComparison } from "./compare.js";
import { button, by, copyButton, element, text } from "./elements.js";
import { LEVELS } from "./levels.js";
import { getInForce, getVersion, listVersions, Refusal } from "./registry.js";
import { fileOf, makeSchemaView } from "./schema.js";
import { forget, latestVersion, liveVersions, registry, shown } from "./state.js";
import { readSchema } from "./avro.js";

const FEW = 12; // so many versions are all shown as links
const ENDS = 3; // of more, so many of the newest and of the oldest
const AROUND = 2; // and so many beside the shown one

const showSchema = makeSchemaView(by("version-schema"), drawComparison);
const drafts = new Map(); // what was typed for each subject
const kept = new Map(); // the versions of this subject that were read
let form;
let drafted; // the subject for which the form's text was typed
let tools = { subject: () => [], version: () => [] }; // the buttons of what is written

/** Builds what depends on leave to write: `write` has the buttons for it, and `registering`. */
export function prepareSubject(write) {
  tools = write ?? tools;
  form = makeCheckForm(by("check"), {
    subject: () => shown.subject,
    against: true,
    yes: (version) => (version ? `It agrees with version ${version}.` : `It may be registered: the level is ${shown.level}.`),
    link: ({ schema, against }) => linkOf({ subject: shown.subject, check: schema.value, against: against.value || undefined }),
    registering: write?.registering,
  });
  by("all-versions").addEventListener("change", (event) => {
    location.hash = addressOf({ subject: shown.subject, version: event.target.value });
  });
}

/** Shows a subject and its version. What is known of the subject is asked anew if it is another one, or `again`. */
export async function showSubject(choice, signal, again) {
  const other = choice.subject !== shown.subject;
  if (other) beginSubject(choice.subject);
  if ((other || again) && !(await loadSubject(choice.subject, signal))) return;
  await showVersion(choice, signal);
  const isWaitedFor = other && choice.version !== undefined && document.activeElement === by("subject-title");
  if (isWaitedFor) by("version-title").focus(); // who chose a version goes on from there
  if (choice.check !== undefined && (other || !again)) await openCheck(choice);
}

function beginSubject(subject) {
  if (drafted !== undefined) drafts.set(drafted, form.schema.value);
  drafted = subject;
  forget();
  form.schema.value = drafts.get(subject) ?? "";
  clearVerdict(form);
  by("subject-body").hidden = true;
  by("subject-missing").hidden = true;
  by("subject-waiting").hidden = false;
  by("subject-title").replaceChildren(text(subject));
  by("subject-title").focus();
}

async function loadSubject(subject, signal) {
  const deleted = registry.subjects.find((it) => it.name === subject)?.deleted;
  const asked = [listVersions(subject, deleted, signal), getInForce(subject, signal)];
  const [versions, inForce] = await Promise.all(asked).catch((error) => [missingSubject(subject, error)]);
  if (!versions) return false;
  kept.clear();
  Object.assign(shown, { subject, versions, ...inForce });
  showRules();
  by("subject-tools").replaceChildren(...tools.subject());
  by("subject-missing").hidden = by("subject-waiting").hidden = true;
  by("subject-body").hidden = false;
  return true;
}

function missingSubject(subject, error) {
  if (!(error instanceof Refusal) || error.status !== 404) throw error;
  forget();
  by("subject-body").hidden = by("subject-waiting").hidden = true;
  by("subject-missing").hidden = false;
  by("subject-missing").replaceChildren("The registry has no subject of this name. It says: ", `${error.code} ${error.message}`);
}

function showRules() {
  const source = (kind) => (shown[kind] === registry.defaults[kind] ? "the same as for all subjects" : "of its own");
  const rule = (words, kind) => [`${words} `, element("b", {}, shown[kind]), `, ${source(kind)}`];
  by("rules").replaceChildren(...rule("Compatibility level", "level"), " · ", ...rule("mode", "mode"));
  by("level-means").textContent = LEVELS[shown.level] ?? "";
  const live = liveVersions().toReversed();
  const before = form.against.value;
  form.against.replaceChildren(
    element("option", { value: "" }, `what the level ${shown.level} requires`),
    ...live.map(({ number }) => element("option", { value: number }, `version ${number} alone`)),
  );
  if (live.some(({ number }) => `${number}` === before)) form.against.value = before;
}

// ---- versions

/** Draws the links to versions, the newest first; where there are many, some of them, and a choice of all. */
function drawVersions(current) {
  const all = shown.versions.toReversed();
  const keep = by("versions").contains(document.activeElement);
  by("versions").replaceChildren(...windowOf(all, current).map(versionRow));
  by("versions-title").textContent = all.length === 1 ? "1 version" : `${all.length} versions`;
  by("all-versions-label").hidden = all.length <= FEW;
  const option = ({ number, deleted }) => element("option", { value: number }, `${number}${deleted ? ", deleted" : ""}`);
  by("all-versions").replaceChildren(...all.map(option));
  by("all-versions").value = `${current}`;
  if (keep) by("versions").querySelector("[aria-current]")?.focus();
}

/** The versions that get a link, with undefined for each gap between them. */
export function windowOf(all, current) {
  const place = all.findIndex((it) => it.number === current);
  const isIn = (_, at) => all.length <= FEW || at < ENDS || at >= all.length - ENDS || Math.abs(at - place) <= AROUND;
  const chosen = all.map((it, at) => (isIn(it, at) ? it : undefined));
  return chosen.filter((it, at) => it !== undefined || chosen[at - 1] !== undefined);
}

function versionRow(version) {
  if (!version) return element("li", { class: "gap", "aria-hidden": "true" }, "…");
  const { number, deleted } = version;
  const address = addressOf({ subject: shown.subject, version: number });
  const here = number === Number(by("subject").dataset.version) && "true";
  const link = element("a", { href: address, class: deleted && "deleted", "aria-current": here }, `${number}`);
  if (deleted) link.append(element("small", {}, " deleted"));
  return element("li", {}, link);
}

async function showVersion(choice, signal) {
  const wanted = choice.version === undefined ? latestVersion() : Number(choice.version);
  const isKnown = () => shown.versions.some((it) => it.number === wanted);
  if (!isKnown()) await loadSubject(choice.subject, signal); // it may be newer than the list
  const found = isKnown() && (await readVersion(choice.subject, wanted, signal));
  by("subject").dataset.version = found ? wanted : "";
  drawVersions(found ? wanted : undefined);
  for (const id of ["version", "difference"]) by(id).hidden = !found;
  by("version-missing").hidden = Boolean(found);
  if (!found) return tellMissingVersion(choice.version);
  drawVersion(found);
  await showComparison(choice, readVersion);
}

async function readVersion(subject, version, signal) {
  const key = `${version} ${subject}`;
  if (!kept.has(key)) kept.set(key, await getVersion(subject, version, signal));
  return kept.get(key);
}

function tellMissingVersion(version) {
  Object.assign(shown, { version: undefined, text: undefined, type: undefined });
  form.begin.hidden = true;
  const address = addressOf({ subject: shown.subject, version: latestVersion() });
  const link = element("a", { href: address }, `Show version ${latestVersion()}`);
  by("version-missing").replaceChildren("This subject has no version ", text(version), ". ", link);
}

function drawVersion({ version, id, schema }) {
  Object.assign(shown, { version, id, text: schema, type: readSchema(schema) });
  const deleted = shown.versions.find((it) => it.number === version)?.deleted;
  const same = element("a", { href: addressOf({ id }) }, `${id}`);
  by("version-title").replaceChildren(`Version ${version}, schema id `, same, deleted ? ", deleted" : "");
  showSchema({ text: schema, name: `version ${version}`, file: fileOf(shown.subject, "version", version) });
  const link = copyButton("Copy link", () => linkOf({ subject: shown.subject, version: shown.version }), `Copy link to version ${version}`);
  const start = button("Start from this version", () => form.begin.click());
  by("version-tools").replaceChildren(start, link, ...tools.version());
  form.kept = schema;
  form.begin.hidden = false;
  form.begin.textContent = `Start from version ${version}`;
}

// ---- checks

/** Opens a link to a check: its schema is put into the form and checked. */
async function openCheck(choice) {
  form.schema.value = choice.check;
  form.against.value = choice.against ?? "";
  if (form.against.selectedIndex < 0) form.against.value = "";
  by("check-title").scrollIntoView();
  await check(form);
}
