// A question before something is written: what will happen, yes or no, and what the registry then says.
import { by, element } from "./elements.js";
import { Away } from "./registry.js";
import { inWords, tellDone } from "./waiting.js";

let asked; // the question that is open

/**
 * Asks: a `title`, `words` that say what will happen, and a word for `yes`. `typed` is a name that has to be typed in first. `work` does it
 * and gives a sentence of what was done; `refused` gives what is shown of a refusal. A `danger` can't be undone, or not easily.
 */
export function askQuestion(question) {
  asked = question;
  const { title, words, yes, danger, typed } = question;
  by("question-title").replaceChildren(...[title].flat());
  by("question-words").replaceChildren(...words);
  by("question-typed").hidden = typed === undefined;
  by("question-name").value = "";
  by("question-name").required = typed !== undefined;
  by("question-yes").textContent = yes;
  by("question-yes").classList.toggle("danger", Boolean(danger));
  by("question-yes").disabled = false;
  by("question-answer").replaceChildren();
  by("question").showModal();
  (typed === undefined ? danger ? by("question-no") : firstControl() : by("question-name")).focus();
}

const firstControl = () => by("question-words").querySelector("input:checked") ?? by("question-yes");

async function answerYes(event) {
  event.preventDefault();
  const question = asked;
  const isRight = question.typed === undefined || by("question-name").value === question.typed;
  if (!isRight) return tell(element("p", {}, "This isn't the subject's name."));
  by("question-yes").disabled = true;
  tell(element("p", {}, "Waiting for the registry."));
  try {
    const done = await question.work();
    by("question").close();
    tellDone(...[done].flat());
    focusTitle();
  } catch (error) {
    tell(...(error instanceof Away ? wordsOfUnknown(error) : await (question.refused ?? wordsOfRefusal)(error)));
    by("question-yes").disabled = false;
    by("question-yes").focus(); // it lost the keys while it was disabled
  }
}

function tell(...words) {
  by("question-answer").replaceChildren(...words);
}

const wordsOfRefusal = (error) => [element("p", { class: "verdict no" }, element("b", {}, inWords(error)))];

function wordsOfUnknown(error) {
  const unknown = "It isn't known whether this was done. Cancel, and look before you try again.";
  return [element("p", {}, element("b", {}, inWords(error))), element("p", {}, unknown)];
}

/** What had the keys before may be gone. */
function focusTitle() {
  const title = [...document.querySelectorAll("article h2")].find((it) => it.closest("[hidden]") === null);
  (title ?? by("main")).focus();
}

by("question-form").addEventListener("submit", answerYes);
by("question-no").addEventListener("click", () => by("question").close());
