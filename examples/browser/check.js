// The form that checks whether a schema may follow, and what is drawn of a clash.
import { faultOf } from "./faults.js";
import { findClash, layOutIfJson, readClash, readSchema } from "./avro.js";
import { button, copyButton, element, labelled, text } from "./elements.js";
import { Away, getVersion, mayFollow, Refusal } from "./registry.js";
import { signal } from "./state.js";
import { drawTree } from "./tree.js";
import { inWords, lose } from "./waiting.js";

const unanswered = new Set(); // forms whose last check had no answer, since the registry was away

/**
 * Builds the form in `place`. `about` has `subject()`, the subject that is asked about, `link(form)`, the address of a check, and may
 * have `registering(form)`, which is called for the button that registers, and `against`, whether there is a choice of versions.
 */
export function makeCheckForm(place, about) {
  const schema = element("textarea", { rows: 9, required: true, autocomplete: "off", autocapitalize: "off", spellcheck: "false" });
  const against = element("select", {});
  const verdict = element("div", { class: "verdict", role: "status" });
  const form = { about, schema, against, verdict, clash: element("div", { class: "clash" }) };
  const buttons = element("div", { class: "buttons" }, element("button", { class: "first", "data-asks": true }, "Check compatibility"));
  const put = (string) => {
    schema.value = string;
    markOld(form);
  };
  form.begin = button(
    "",
    () => {
      put(layOutIfJson(form.kept));
      schema.setSelectionRange(0, 0); // first, or the browser brings the caret's old place into sight
      schema.focus({ preventScroll: true });
      schema.scrollTop = 0;
      schema.scrollIntoView({ block: "nearest" });
    },
    { hidden: true },
  );
  if (about.registering) buttons.append(button("Register…", () => about.registering(form), { "data-asks": true }));
  buttons.append(button("Indent", () => put(layOutIfJson(schema.value))), copyButton("Copy link", () => about.link(form), "Copy link to this check"));
  const above = element("div", { class: "buttons" }, form.begin);
  const fields = element("form", {}, above, labelled("New schema, as JSON", schema), about.against && labelled("Compare with", against), buttons);
  schema.addEventListener("input", () => markOld(form));
  fields.addEventListener("submit", (event) => {
    event.preventDefault();
    check(form);
  });
  place.replaceChildren(fields, verdict, form.clash);
  return form;
}

/** Checks what is in the form, says the verdict, and returns whether the schema may follow. */
export async function check(form, against = form.against.value) {
  const [name, schema, given] = [form.about.subject(), form.schema.value, signal()];
  clearVerdict(form);
  tell(form, "", "Checking.");
  try {
    const answer = await mayFollow(name, schema, against, given);
    if (answer.is_compatible) tell(form, "yes", element("b", {}, "Compatible."), " ", form.about.yes?.(against) ?? "");
    else await tellClash(form, answer.messages?.[0] ?? "", name, schema, given);
    showVerdict(form, schema, answer.is_compatible ? "nearest" : "start");
    return answer.is_compatible;
  } catch (error) {
    if (given.aborted) return false;
    tell(form, "no", ...wordsOf(error, schema));
    showVerdict(form, schema, "nearest");
    if (error instanceof Away) {
      unanswered.add(form);
      lose(error);
    }
    return false;
  }
}

function showVerdict(form, schema, block) {
  if (form.schema.value !== schema) markOld(form); // somebody typed meanwhile
  form.verdict.scrollIntoView({ block });
}

/** Once the registry is back, a check that had no answer is to be made again, and what was said of it is over. */
export function tellUnanswered() {
  for (const form of unanswered) tell(form, "", "The registry didn't answer, and is back now: check again.");
}

async function tellClash(form, message, name, schema, given) {
  tell(form, "no", element("b", {}, "Not compatible. "), element("code", {}, text(message)));
  form.clash.replaceChildren(...(await drawClash(message, name, schema, given)));
}

function tell(form, kind, ...words) {
  form.verdict.className = `verdict ${kind}`;
  form.clash.classList.remove("old");
  unanswered.delete(form);
  form.verdict.replaceChildren(...words);
}

/** A verdict on a text that was changed since stays, and says so; with what was drawn of a clash it turns pale. */
function markOld({ verdict, clash }) {
  if (!verdict.matches(".yes, .no") || verdict.classList.contains("old")) return;
  verdict.classList.add("old");
  clash.classList.add("old");
  verdict.append(element("p", { class: "fact" }, "This was said of the text before it was changed."));
}

export function clearVerdict(form) {
  tell(form, "");
  form.clash.replaceChildren();
}

/** A refusal as the registry says it, and the reason where it has none. */
export function wordsOf(error, schema) {
  const words = [element("b", {}, inWords(error))];
  if (!(error instanceof Refusal) || error.message !== "Invalid Avro schema") return words;
  const fault = faultOf(schema) ?? "This page finds no reason: the registry judges by rules that it doesn't know.";
  return [...words, element("p", { class: "reason" }, text(fault))];
}

/** Both schemas, each unfolded down to the clash that a message tells; nothing if it tells none. */
export async function drawClash(message, name, schema, signal) {
  const clash = readClash(message);
  if (!clash) return [];
  const old = await getVersion(name, clash.version, signal);
  const young = { name: "the new schema", type: readSchema(schema) };
  const kept = { name: `version ${clash.version}`, type: readSchema(old.schema) };
  const [reader, writer] = clash.newReads ? [young, kept] : [kept, young];
  const found = findClash(clash, reader.type, writer.type);
  const side = ({ name, type }, role, way) => {
    const title = `${role}: ${name}`;
    return element("section", { class: "side" }, element("h4", {}, title), drawTree(type, { name: title, way, why: found.why }));
  };
  return [side(reader, "Reader", found.reader), side(writer, "Writer", found.writer)];
}
