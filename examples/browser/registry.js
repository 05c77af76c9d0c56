// What is asked of the registry.

// The page stands in a folder of the registry's own address.
const ROOT = new URL("../", location.origin + location.pathname);
const PATIENCE = 300_000; // milliseconds that an answer may take; meanwhile the browser may ask for a password

/** What the registry, or nginx before it, refuses. */
export class Refusal extends Error {
  constructor(status, code, message) {
    super(message);
    this.status = status;
    this.code = code;
  }
}

/** No answer of a registry: the connection failed, it took too long, or nginx had none. */
export class Away extends Error {}

/** The requests that haven't been answered, each with the time at which it began. */
export const waits = new Set();

async function ask(path, { method, body, signal } = {}) {
  const wait = { begun: performance.now() };
  waits.add(wait);
  try {
    return await answerOf(path, method ?? (body ? "POST" : "GET"), body, signal);
  } finally {
    waits.delete(wait);
  }
}

async function answerOf(path, method, body, signal) {
  const end = new AbortController();
  const give = () => end.abort();
  const late = setTimeout(give, PATIENCE);
  signal?.addEventListener("abort", give);
  try {
    const answer = await fetch(new URL(path, ROOT), {
      method,
      headers: body ? { "Content-Type": "application/vnd.schemaregistry.v1+json" } : {},
      body: body && JSON.stringify(body),
      cache: "no-store",
      signal: end.signal,
    });
    return answer.ok ? await answer.json() : await refuse(answer);
  } catch (error) {
    if (error instanceof Refusal || error instanceof Away || signal?.aborted) throw error;
    throw new Away(end.signal.aborted ? `it hasn't answered for ${PATIENCE / 60_000} minutes` : "no connection");
  } finally {
    clearTimeout(late);
    signal?.removeEventListener("abort", give);
  }
}

async function refuse(answer) {
  // nginx may refuse in words of its own, or without any.
  const { error_code: code = answer.status, message = "" } = (await answer.json().catch(() => undefined)) ?? {};
  const silent = [502, 503, 504].includes(answer.status) && code === answer.status;
  if (silent) throw new Away(`the web server answers ${answer.status}`);
  throw new Refusal(answer.status, code, `${message}`);
}

const subject = (name) => `subjects/${encodeURIComponent(name)}`;

// ---- what reads

/** Whether the registry answers at all. */
export const isThere = () => ask("mode");

export const listSubjects = async () => {
  const [live, all] = await Promise.all([ask("subjects"), ask("subjects?deleted=true")]);
  const alive = new Set(live);
  return all.map((name) => ({ name, deleted: !alive.has(name) }));
};

/** The versions of a subject. Where all are deleted, the registry has no list of live ones, so it isn't asked for that. */
export const listVersions = async (name, deleted, signal) => {
  const path = `${subject(name)}/versions`;
  const ofLive = deleted ? [] : ask(path, { signal }).catch(noneIfMissing);
  const [live, all] = await Promise.all([ofLive, ask(`${path}?deleted=true`, { signal })]);
  const alive = new Set(live);
  return all.map((number) => ({ number, deleted: !alive.has(number) }));
};

function noneIfMissing(error) {
  if (error instanceof Refusal && error.status === 404) return [];
  throw error;
}

/** A version: its number, its id and its schema's text. */
export const getVersion = (name, version, signal) => ask(`${subject(name)}/versions/${version}?deleted=true`, { signal });

/** The text of the schema with an id, and the versions that have it, `{subject, version, deleted}`. */
export const getById = async (id, signal) => {
  const path = `schemas/ids/${encodeURIComponent(id)}`;
  const { schema } = await ask(path, { signal });
  const [live, all] = await Promise.all([ask(`${path}/versions`, { signal }), ask(`${path}/versions?deleted=true`, { signal })]);
  const key = (it) => `${it.version} ${it.subject}`;
  const alive = new Set(live.map(key));
  return { schema, versions: all.map((it) => ({ ...it, deleted: !alive.has(key(it)) })) };
};

/** The live versions that have the schema with an id, `{subject, version}`. */
export const versionsOfId = (id) => ask(`schemas/ids/${id}/versions`);

/** The level and the mode for all subjects. */
export const getDefaults = async () => {
  const [level, mode] = await Promise.all([ask("config"), ask("mode")]);
  return { level: level.compatibilityLevel, mode: mode.mode };
};

/** The level and the mode in force for a subject. */
export const getInForce = async (name, signal) => {
  const path = `${encodeURIComponent(name)}?defaultToGlobal=true`;
  const [level, mode] = await Promise.all([ask(`config/${path}`, { signal }), ask(`mode/${path}`, { signal })]);
  return { level: level.compatibilityLevel, mode: mode.mode };
};

/** Whether a schema may follow, by the level in force or, where a version is given, beside that one; and the clashes. */
export const mayFollow = (name, schema, version, signal) => {
  const path = `compatibility/${subject(name)}/versions${version ? `/${version}` : ""}?verbose=true`;
  return ask(path, { body: { schema }, signal });
};

// ---- what writes

export const register = (name, schema) => ask(`${subject(name)}/versions`, { body: { schema } });

/** Deletes a version or, where none is given, all of a subject; softly or for good. */
export const remove = (name, version, permanent) => {
  const path = `${subject(name)}${version === undefined ? "" : `/versions/${version}`}`;
  return ask(`${path}${permanent ? "?permanent=true" : ""}`, { method: "DELETE" });
};

/** `kind` is level or mode; without a subject it is for all, and without a value the subject's own one is cleared. */
export const setRule = (kind, name, value) => {
  const path = `${kind === "level" ? "config" : "mode"}${name === undefined ? "" : `/${encodeURIComponent(name)}`}`;
  if (value === undefined) return ask(path, { method: "DELETE" });
  return ask(path, { method: "PUT", body: kind === "level" ? { compatibility: value } : { mode: value } });
};
