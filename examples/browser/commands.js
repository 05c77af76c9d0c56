// What changes the registry. Each command is behind a question, and the registry judges.
import { addressOf } from "./address.js";
import { readSchema } from "./avro.js";
import { differences, sumsOf } from "./changes.js";
import { check, clearVerdict, drawClash, wordsOf } from "./check.js";
import { button, by, choiceOf, element, text } from "./elements.js";
import { LEVELS, MODES } from "./levels.js";
import { askQuestion } from "./question.js";
import { getDefaults, getInForce, getVersion, listSubjects, listVersions, register, remove, setRule, versionsOfId } from "./registry.js";
import { liveVersions, nextVersion, registry, shown, signal } from "./state.js";
import { trying } from "./waiting.js";

const TRIES = 40; // how often it is asked whether what was written is seen
const PAUSE = 250; // milliseconds between two of these

const words = (...parts) => element("p", {}, ...parts);
const name = (subject) => element("b", {}, text(subject));

let refresh; // shows everything anew

export function prepareCommands(refreshAll) {
  refresh = refreshAll;
  const all = (kind) => asking(`Change ${kind}…`, () => changeRule(kind), false, `Change ${kind}… for all subjects`);
  by("defaults-tools").hidden = true; // until it is known what holds now
  by("defaults-tools").replaceChildren(all("level"), " ", all("mode"));
  by("list-tools").replaceChildren(element("a", { href: addressOf({ new: "" }), class: "button", id: "new-subject" }, "New subject"));
}

/** Shows a choice, as it is now. */
async function goTo(choice) {
  history.pushState(null, "", addressOf(choice));
  await refresh();
}

/** Another node may answer, which sees what was written a moment later. */
async function awaitSeen(holds) {
  for (let tries = 0; tries < TRIES; tries += 1) {
    const seen = await holds().catch(() => undefined);
    if (seen) return seen;
    await new Promise((resume) => setTimeout(resume, PAUSE));
  }
  return undefined;
}

/** The versions of a subject that may not be there. */
async function versionsNow(subject) {
  const listed = (await listSubjects()).find((it) => it.name === subject);
  return listed ? listVersions(subject, listed.deleted) : [];
}

// ---- registering

/** Checks what is in the form by the level in force, and then asks whether it is to be registered. */
export async function registerFrom(form) {
  const subject = form.about.subject();
  if (!form.schema.reportValidity() || subject === undefined || !(await check(form, ""))) return;
  const schema = form.schema.value;
  await trying(async () => {
    const before = await versionsNow(subject);
    const next = Math.max(0, ...before.map((it) => it.number)) + 1;
    const changes = await wordsOfChanges(subject, before, schema);
    askQuestion({
      title: ["Register this schema in ", name(subject), "?"],
      words: [
        words(before.length === 0 ? "It makes a new subject, and is its version 1." : `It is compatible, and becomes version ${next}.`),
        ...changes,
        words("If the subject has this schema already, nothing is written, and you are told its version."),
      ],
      yes: "Register",
      work: async () => {
        const done = await registerAndShow(subject, schema, before);
        clearVerdict(form); // it was said of what is done now
        return done;
      },
      refused: (error) => {
        clearVerdict(form);
        return wordsOfConflict(error, subject, schema);
      },
    });
  });
}

/** What changes against the latest version: who started from an older one sees what would be lost. */
async function wordsOfChanges(subject, before, schema) {
  const latest = before.findLast((it) => !it.deleted)?.number;
  if (latest === undefined) return [];
  const kept = await getVersion(subject, latest, signal());
  const sums = sumsOf(differences(readSchema(kept.schema), readSchema(schema)));
  const told = sums.flatMap(({ words: sum, places, lost }, place) => [
    place === 0 ? "" : ", ",
    lost ? element("b", { class: "lost" }, sum) : sum,
    ...(places ? [" (", text(places), ")"] : []),
  ]);
  return [words(`Against version ${latest}, the latest: `, ...(sums.length === 0 ? ["nothing changed"] : told), ".")];
}

async function registerAndShow(subject, schema, before) {
  const { id } = await register(subject, schema);
  const find = async () => (await versionsOfId(id)).filter((it) => it.subject === subject).at(-1);
  const version = (await awaitSeen(find))?.version;
  await goTo({ subject, version });
  const known = before.some((it) => it.number === version);
  if (known) return `The subject has this schema already: version ${version}, schema id ${id}. Nothing was written.`;
  return `Registered${version ? ` as version ${version}` : ""}, with schema id ${id}.`;
}

/** A refusal with its reason, and with both schemas where it tells a clash. */
async function wordsOfConflict(error, subject, schema) {
  const refusal = element("div", { class: "verdict no" }, ...wordsOf(error, schema));
  const message = error.message.replace(/^Incompatible with /, "");
  const drawn = await drawClash(message, subject, schema, signal()).catch(() => []);
  return [refusal, element("div", { class: "clash" }, ...drawn)];
}

/** The same text again: the registry has nothing else that undoes a delete. */
function restore() {
  const { subject, version, id, text: schema, level } = shown;
  const before = shown.versions;
  askQuestion({
    title: [`Register version ${version} of `, name(subject), " again?"],
    words: [
      words(
        "A deleted version doesn't come back as it was. Its text is registered again: ",
        `it becomes version ${nextVersion()}, with its old schema id ${id}, and version ${version} stays deleted.`,
      ),
      words(`The level ${level} holds for it too. If the text isn't compatible, the registry refuses (409).`),
    ],
    yes: "Register again",
    work: () => registerAndShow(subject, schema, before),
    refused: (error) => wordsOfConflict(error, subject, schema),
  });
}

// ---- deleting

function deleteVersion() {
  const { subject, version, id } = shown;
  askQuestion({
    title: [`Delete version ${version} of `, name(subject), "?"],
    words: [
      words("It is no longer listed, and new schemas aren't compared with it."),
      words(
        `Data that was written with its schema id ${id} can still be read: the id keeps its schema. `,
        "Its text can be registered again, as a new version.",
      ),
    ],
    yes: "Delete",
    danger: true,
    work: async () => {
      await remove(subject, version, false);
      await awaitSeen(async () => (await versionsNow(subject)).some((it) => it.number === version && it.deleted));
      await goTo({ subject, version });
      return `Deleted version ${version}.`;
    },
  });
}

function deleteVersionForGood() {
  const { subject, version, id } = shown;
  askQuestion({
    title: [`Delete version ${version} of `, name(subject), " for good?"],
    words: [
      words(element("b", {}, "This can't be undone.")),
      words(
        `Unless another version has the schema id ${id} too, the registry no longer knows its schema: `,
        "data that was written with it can't be read.",
      ),
    ],
    yes: "Delete for good",
    danger: true,
    typed: subject,
    work: async () => {
      await remove(subject, version, true);
      const left = await awaitSeen(async () => {
        const versions = await versionsNow(subject);
        return versions.some((it) => it.number === version) ? undefined : versions;
      });
      await goTo(left?.length === 0 ? {} : { subject });
      return `Deleted version ${version} for good.`;
    },
  });
}

function deleteSubject() {
  const { subject } = shown;
  const live = liveVersions().length;
  askQuestion({
    title: ["Delete the subject ", name(subject), "?"],
    words: [
      words(live === 1 ? "Its one version is deleted." : `All its ${live} versions are deleted.`),
      words("They are no longer listed, and new schemas aren't compared with them."),
      words("Data can still be read: each id keeps its schema. Each version's text can be registered again, as a new version."),
    ],
    yes: "Delete",
    danger: true,
    work: async () => {
      await remove(subject, undefined, false);
      await awaitSeen(async () => (await versionsNow(subject)).every((it) => it.deleted));
      await goTo({ subject });
      return ["Deleted the subject ", name(subject), "."];
    },
  });
}

function deleteSubjectForGood() {
  const { subject } = shown;
  askQuestion({
    title: ["Delete the subject ", name(subject), " for good?"],
    words: [
      words(element("b", {}, "This can't be undone.")),
      words(`All its versions (${shown.versions.length}) go.`),
      words("Ids that no other subject has are then unknown: data that was written with them can't be read."),
    ],
    yes: "Delete for good",
    danger: true,
    typed: subject,
    work: async () => {
      await remove(subject, undefined, true);
      await awaitSeen(async () => (await versionsNow(subject)).length === 0);
      await goTo({});
      return ["Deleted the subject ", name(subject), " for good."];
    },
  });
}

// ---- levels and modes

const KINDS = {
  level: {
    words: "compatibility level",
    meanings: LEVELS,
    since: "It holds from the next registration on. What is registered stays as it is.",
  },
  mode: { words: "mode", meanings: MODES, since: "It holds at once, for everybody." },
};

/** Changes the level or the mode, of a subject or, without one, for all. */
function changeRule(kind, subject) {
  const { words: what, meanings, since } = KINDS[kind];
  const now = subject === undefined ? registry.defaults[kind] : shown[kind];
  const option = (value, title, meaning) => [value, [element("b", {}, title), element("small", {}, ` ${meaning}`)]];
  const options = Object.entries(meanings).map(([value, meaning]) => option(value, value, meaning));
  const cleared = `Its own ${kind} is cleared: it follows the one for all, ${registry.defaults[kind]}.`;
  const clear = option("", "As for all subjects", cleared);
  let chosen = now;
  const choices = choiceOf(`New ${what}`, "rule", subject === undefined ? options : [...options, clear], now, (value) => (chosen = value));
  choices.classList.add("long");
  const others = subject === undefined ? " Subjects with one of their own keep it." : "";
  askQuestion({
    title: subject === undefined ? `Change the ${what} for all subjects?` : [`Change the ${what} of `, name(subject), "?"],
    words: [words(`Now it is ${now}. ${since}${others}`), choices],
    yes: "Change",
    work: () => setAndShow(kind, subject, chosen),
  });
}

async function setAndShow(kind, subject, value) {
  await setRule(kind, subject, value || undefined);
  const wanted = value || registry.defaults[kind];
  await awaitSeen(async () => (await (subject === undefined ? getDefaults() : getInForce(subject)))[kind] === wanted);
  await refresh();
  if (value === "") return `Cleared its own ${KINDS[kind].words}: it is ${wanted}, as for all subjects.`;
  return `The ${KINDS[kind].words} is now ${value}.`;
}

// ---- buttons

const asking = (label, action, danger, name) => button(label, action, { "data-asks": true, class: danger && "danger", "aria-label": name });

export function subjectTools() {
  const { subject } = shown;
  const end = liveVersions().length > 0 ? ["Delete subject…", deleteSubject] : ["Delete subject for good…", deleteSubjectForGood];
  const rule = (kind) => asking(`Change ${kind}…`, () => changeRule(kind, subject), false, `Change ${kind}… of this subject`);
  return [rule("level"), rule("mode"), asking(...end, true)];
}

export function versionTools() {
  const deleted = shown.versions.find((it) => it.number === shown.version)?.deleted;
  if (!deleted) return [asking("Delete version…", deleteVersion, true)];
  return [asking("Register again…", restore), asking("Delete for good…", deleteVersionForGood, true)];
}
