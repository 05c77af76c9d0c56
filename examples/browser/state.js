// What the page knows.

/** From `settings.json`, which the web server gives by role. */
export const settings = { name: "Schemas", write: false };

/** The registry's subjects, `{name, deleted}`, and its level and mode for all of them. */
export const registry = { subjects: [], defaults: {} };

/** The subject that is shown: `subject`, `versions`, `level`, `mode`; and its version: `version`, `id`, `text`, `type`. */
export const shown = {};

let requests = new AbortController();

/** Ends the requests for what was shown before, and gives the signal for those to come. */
export function beginAnew() {
  requests.abort();
  requests = new AbortController();
  return requests.signal;
}

export const signal = () => requests.signal;

export function forget() {
  for (const member of Object.keys(shown)) delete shown[member];
}

export const liveVersions = () => shown.versions.filter((it) => !it.deleted);

/** The greatest live version, or else the greatest. */
export const latestVersion = () => (liveVersions().at(-1) ?? shown.versions.at(-1)).number;

/** The number that the subject's next version gets. */
export const nextVersion = () => Math.max(0, ...shown.versions.map((it) => it.number)) + 1;

const COLOURS = new Set(["red", "amber", "green", "blue", "violet"]);

/** Reads the settings. Where there are none, or others than these, the page only reads. */
export async function readSettings() {
  const place = new URL("settings.json", location.origin + location.pathname);
  const answer = await fetch(place, { cache: "no-store" }).catch(() => undefined);
  const given = answer?.ok ? await answer.json().catch(() => undefined) : undefined;
  if (given === null || typeof given !== "object") return;
  settings.write = given.write === true;
  if (typeof given.name === "string" && given.name.trim() !== "") settings.name = given.name.trim().slice(0, 80);
  if (COLOURS.has(given.colour)) settings.colour = given.colour;
}
