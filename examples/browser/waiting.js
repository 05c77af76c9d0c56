// What is shown while an answer is waited for, while the registry is away, and once it is back.
import { button, by, element } from "./elements.js";
import { Away, isThere, Refusal, waits } from "./registry.js";

const SOON = 800; // milliseconds without an answer until that is said
const LONG = 8_000; // and until it is said for how long
const STEPS = [1_000, 2_000, 4_000, 8_000, 15_000]; // milliseconds between tries while the registry is away
const BRIEF = 8_000; // milliseconds that what needn't stay is shown

let comeBack = () => {}; // what is done once the registry is back
let next; // the timer of the next try
let tries = 0;
let fading; // the timer that ends what needn't stay

export function onReturn(action) {
  comeBack = action;
}

/** Does it, and shows what goes wrong. What ends because something else was chosen isn't wrong. Returns whether it was done. */
export async function trying(work) {
  try {
    await work();
    if (!isAway()) clearTrouble();
    return true;
  } catch (error) {
    if (error.name === "AbortError") return false;
    if (error instanceof Away) lose(error);
    else showTrouble(error);
    return false;
  }
}

const isAway = () => next !== undefined;

function showTrouble(error) {
  if (!(error instanceof Refusal)) reportError(error);
  by("subject-waiting").hidden = true;
  const words = [element("p", {}, inWords(error))];
  if (error.status === 401) words.push(element("p", {}, button("Give the password again", () => location.reload())));
  tellTrouble(words);
}

function tellTrouble(words) {
  by("waiting").textContent = "";
  by("trouble").hidden = false;
  by("trouble").replaceChildren(...words);
}

export function clearTrouble() {
  by("trouble").hidden = true;
  by("trouble").replaceChildren();
}

export function inWords(error) {
  if (error instanceof Away) return `The registry can't be reached: ${error.message}.`;
  if (!(error instanceof Refusal)) return `This page failed: ${error.message}`;
  const known = { 401: "The password was refused", 403: "You may not do this here" }[error.status];
  const answer = error.message ? `${error.code} ${error.message}` : `${error.status}`;
  return known ? `${known}. The answer is ${answer}.` : `The registry refuses: ${answer}`;
}

export function tellDone(...words) {
  clearTimeout(fading);
  by("done").replaceChildren(...words);
}

/** Says what needn't stay. */
export function tellBriefly(words) {
  tellDone(words);
  fading = setTimeout(() => tellDone(), BRIEF);
}

// ---- away and back

/** Says that the registry is away, stops what would ask it, and tries until it answers. */
export function lose(error) {
  if (isAway()) return;
  tries = 0;
  tellDone();
  const again = "It is tried again by itself. What you typed stays.";
  tellTrouble([element("p", {}, inWords(error)), element("p", {}, again), element("p", {}, button("Try now", tryNow))]);
  setAway(true);
  plan();
}

function plan() {
  next = setTimeout(tryNow, STEPS[Math.min(tries, STEPS.length - 1)]);
  tries += 1;
}

async function tryNow() {
  clearTimeout(next);
  try {
    await isThere();
  } catch (error) {
    if (error instanceof Away) return plan();
  }
  if (!isAway()) return;
  next = undefined;
  setAway(false);
  clearTrouble();
  tellBriefly("The registry is back.");
  await comeBack();
}

function setAway(away) {
  document.body.classList.toggle("away-now", away);
  for (const it of document.querySelectorAll("[data-asks]")) it.disabled = away;
}

// ---- slow answers

function showWaits() {
  const longest = Math.max(0, ...[...waits].map((wait) => performance.now() - wait.begun));
  if (longest < SOON || isAway()) return tellWaiting("");
  const seconds = Math.floor(longest / 5_000) * 5;
  const words = `The registry hasn't answered for ${seconds} seconds. If the browser asks for a password, it waits for that.`;
  tellWaiting(longest < LONG ? "Waiting for the registry." : words);
}

/** At the start the page itself has words there, until the first answer. */
function tellWaiting(words) {
  if (!document.body.classList.contains("starting") && by("waiting").textContent !== words) by("waiting").textContent = words;
}

setInterval(showWaits, 300);
