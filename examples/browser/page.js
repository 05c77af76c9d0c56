// The page: what is chosen is behind the # of its address, and is shown.
import { readAddress } from "./address.js";
import { tellUnanswered } from "./check.js";
import { prepareCommands, registerFrom, subjectTools, versionTools } from "./commands.js";
import { by } from "./elements.js";
import { prepareFresh, showFresh } from "./fresh.js";
import { showIdentity } from "./identity.js";
import { bringIntoSight, refreshList } from "./list.js";
import { Away } from "./registry.js";
import { beginAnew, forget, readSettings, settings } from "./state.js";
import { prepareSubject, showSubject } from "./subject.js";
import { lose, onReturn, tellBriefly, tellDone, trying } from "./waiting.js";

const OFTEN = 60_000; // milliseconds after which the list is asked for again

let inSight; // the subject that was brought into sight last

const VIEWS = {
  nothing: { title: () => undefined, show: forget },
  identity: { title: ({ id }) => `id ${id}`, show: (...given) => (forget(), showIdentity(...given)) },
  subject: { title: ({ subject }) => subject, show: showSubject },
  fresh: { title: () => "New subject", show: (choice, signal, again) => (forget(), showFresh(choice, again)) },
};

function viewOf({ subject, id, new: fresh }) {
  if (subject !== undefined) return "subject";
  if (fresh !== undefined && settings.write) return "fresh";
  return id !== undefined ? "identity" : "nothing";
}

/** Shows what the address asks for; asks for all of it anew if `again`. */
async function showChoice(again = false) {
  const signal = beginAnew();
  const choice = readAddress();
  const name = viewOf(choice);
  for (const other of Object.keys(VIEWS)) by(other).hidden = other !== name;
  document.body.classList.toggle("chosen", name !== "nothing");
  document.title = [VIEWS[name].title(choice), settings.name].filter(Boolean).join(" · ");
  if (choice.subject !== inSight) bringIntoSight(); // another version moves nothing
  inSight = choice.subject;
  await trying(() => VIEWS[name].show(choice, signal, again));
}

/** Asks for everything again: the list, and what is shown. */
async function refresh() {
  if (await trying(refreshList)) {
    document.body.classList.remove("starting");
    by("waiting").textContent = "";
    await showChoice(true);
  }
}

async function refreshAndTell() {
  await refresh();
  tellBriefly("The list is up to date.");
}

/** Once in a while, and when somebody comes back to the page, the list alone. */
async function refreshQuietly() {
  const starting = document.body.classList.contains("starting") || document.body.classList.contains("away-now");
  if (document.visibilityState !== "visible" || starting) return;
  await refreshList().catch((error) => error instanceof Away && lose(error));
}

function showOther() {
  if (document.body.classList.contains("starting")) return; // the start shows it
  tellDone();
  showChoice();
}

async function start() {
  await readSettings();
  by("name").textContent = document.title = settings.name;
  if (settings.colour) document.body.dataset.colour = settings.colour;
  prepareSubject(settings.write ? { registering: registerFrom, subject: subjectTools, version: versionTools } : undefined);
  if (settings.write) {
    prepareFresh(registerFrom);
    prepareCommands(refresh);
  }
  onReturn(() => {
    tellUnanswered();
    return refresh();
  });
  addEventListener("hashchange", showOther);
  by("refresh").addEventListener("click", refreshAndTell);
  by("skip").addEventListener("click", () => by("main").focus());
  document.addEventListener("visibilitychange", refreshQuietly);
  setInterval(refreshQuietly, OFTEN);
  await refresh();
}

await start();
