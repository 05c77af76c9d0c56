// Avro schemas as trees: how a text is read, which fields have a name, and where a clash's trail leads in two of them.
// Nothing here touches the page. A schema is taken as the registry accepted it, so its rules aren't checked again.

const PRIMITIVES = new Set(["null", "boolean", "int", "long", "float", "double", "bytes", "string"]);
export const NAMED = new Set(["record", "enum", "fixed"]);
// What a type or a field says by itself; all else it says is shown and compared as it stands.
const STRUCTURE = new Set(["type", "name", "namespace", "fields", "items", "values", "symbols", "size", "aliases"]);

// ---- reading

/**
 * Reads a schema's text. A type has a `kind` (a primitive's name, record, enum, fixed, array, map, union, or use) and the parts of
 * its kind: `name`, `aliases`, `fields`, `symbols`, `size`, `items`, `values`, `branches`. A use has the `target` that it
 * names. `said` has what else the text says of it: a list of names and values.
 */
export function readSchema(text) {
  return readType(JSON.parse(text, exactNumber), "", new Map());
}

/** The same text, laid out on lines. */
export function layOut(text) {
  return JSON.stringify(JSON.parse(text, exactNumber), null, 2);
}

/** The same text, or the text as it is if it isn't JSON. */
export function layOutIfJson(text) {
  try {
    return layOut(text);
  } catch {
    return text;
  }
}

/** Keeps the digits of a number that JavaScript would round, where the browser tells them. */
function exactNumber(_, value, context) {
  const rounded = typeof value === "number" && !Number.isSafeInteger(value);
  return rounded && context?.source && JSON.rawJSON ? JSON.rawJSON(context.source) : value;
}

function readType(json, namespace, names) {
  if (typeof json === "string") {
    if (PRIMITIVES.has(json)) return { kind: json, said: [] };
    const target = names.get(fullName(json, namespace)) ?? names.get(json);
    return { kind: "use", name: target?.name ?? json, target, said: [] };
  }
  if (Array.isArray(json)) return { kind: "union", branches: json.map((branch) => readType(branch, namespace, names)), said: [] };
  if (NAMED.has(json.type)) return readNamed(json, namespace, names);
  const part = (member) => readType(json[member], namespace, names);
  if (json.type === "array") return { kind: "array", items: part("items"), said: sayings(json) };
  if (json.type === "map") return { kind: "map", values: part("values"), said: sayings(json) };
  return { ...part("type"), ...(PRIMITIVES.has(json.type) && { said: sayings(json) }) };
}

function readNamed(json, outer, names) {
  const name = fullName(json.name, typeof json.namespace === "string" ? json.namespace : outer);
  const namespace = name.slice(0, Math.max(name.lastIndexOf("."), 0));
  const aliases = (json.aliases ?? []).map((alias) => fullName(alias, namespace));
  const type = { kind: json.type, name, aliases, symbols: json.symbols, size: json.size, said: sayings(json) };
  type.symbolParts = json.symbols?.map((symbol) => ({ name: symbol }));
  names.set(name, type); // before its fields, which may use it
  type.fields = json.fields?.map((field) => ({
    name: field.name,
    aliases: field.aliases ?? [],
    type: readType(field.type, namespace, names),
    said: sayings(field),
  }));
  return type;
}

function fullName(name, namespace) {
  return name.includes(".") || namespace === "" ? name : `${namespace}.${name}`;
}

function sayings(json) {
  return Object.entries(json).filter(([member]) => !STRUCTURE.has(member));
}

// ---- showing

/** A type in a few words. */
export function label(type) {
  const part = (inner) => (inner.kind === "union" ? `(${label(inner)})` : label(inner));
  switch (type.kind) {
    case "use": return type.name;
    case "record":
    case "enum": return `${type.kind} ${type.name}`;
    case "fixed": return `fixed ${type.name} of ${type.size} bytes`;
    case "array": return `array of ${part(type.items)}`;
    case "map": return `map of ${part(type.values)}`;
    case "union": return type.branches.map(label).join(" | ") || "union of nothing";
    default: return withLogical(type);
  }
}

function withLogical(type) {
  const logical = type.said.find(([member]) => member === "logicalType")?.[1];
  return typeof logical === "string" ? `${type.kind} (${logical})` : type.kind;
}

/**
 * What stands under a type: parts with a `name`, and a `type` unless they are an enum's symbols. The name of an `isPlace` is none that the
 * schema gives.
 */
export function parts(type) {
  switch (type.kind) {
    case "use": return type.target ? parts(type.target) : [];
    case "record": return type.fields;
    case "enum": return type.symbolParts;
    case "array": return [{ name: "items", type: type.items, isPlace: true }];
    case "map": return [{ name: "values", type: type.values, isPlace: true }];
    case "union": return type.branches.map((branch, number) => ({ name: `branch ${number}`, type: branch, isPlace: true }));
    default: return [];
  }
}

/** What a use of a type names, else the type itself. */
export function meant(type) {
  return type.kind === "use" ? type.target ?? type : type;
}

// ---- finding fields

/** The fields whose names have a word in them, whatever its case, each with its `where`, in the order of the schema. */
export function findFields(type, word) {
  const found = [];
  const look = (where, type) => {
    if (type.kind === "array") look(`${where}[]`, type.items);
    if (type.kind === "map") look(`${where}{}`, type.values);
    for (const branch of type.branches ?? []) look(where, branch);
    for (const field of type.fields ?? []) {
      const place = where ? `${where}.${field.name}` : field.name;
      if (field.name.toLowerCase().includes(word.toLowerCase())) found.push({ where: place, field });
      look(place, field.type);
    }
  };
  look("", type);
  return found;
}

// ---- a clash

/** Reads a check's message `version V, DIRECTION, at TRAIL: CLASH`; undefined where it is none. */
export function readClash(message) {
  const found = /^version (\d+), (BACKWARD|FORWARD), at (\/\S*): ([A-Z_]+)(?: (\S+))?$/.exec(message);
  if (!found) return undefined;
  const [, version, direction, trail, kind, name] = found;
  return { version: Number(version), newReads: direction === "BACKWARD", hops: trail.split("/").filter(Boolean), kind, name };
}

/**
 * Follows a clash's trail through both schemas. `reader` and `writer` are the places among `parts` that lead to the clash,
 * from the roots down; `why` says in words what clashes there.
 */
export function findClash(clash, reader, writer) {
  const ways = { reader: [], writer: [] };
  const step = {
    field: fieldStep,
    items: () => [0, 0],
    values: () => [0, 0],
    reader: (branch) => [Number(branch), null],
    writer: (branch) => [null, Number(branch)],
  };
  for (const [word, rest] of clash.hops.map((hop) => hop.split(":"))) {
    const [inReader, inWriter] = step[word](rest);
    reader = into("reader", reader, inReader);
    writer = into("writer", writer, inWriter);
  }
  const named = (type) => parts(type).findIndex((part) => part.name === clash.name);
  if (clash.kind === "READER_FIELD_MISSING_DEFAULT_VALUE") ways.reader.push(named(reader));
  if (clash.kind === "MISSING_ENUM_SYMBOLS") ways.writer.push(named(writer));
  return { ...ways, why: reason(clash, reader, writer) };

  function into(side, type, place) {
    if (place === null) return type;
    ways[side].push(place);
    return parts(type)[place].type;
  }

  // The writer's field of that name, else of the first alias that it has.
  function fieldStep(name) {
    const place = parts(reader).findIndex((part) => part.name === name);
    const names = [name, ...parts(reader)[place].aliases];
    const read = names.map((one) => parts(writer).findIndex((part) => part.name === one)).find((one) => one >= 0);
    return [place, read];
  }
}

function reason(clash, reader, writer) {
  const [reads, writes] = [label(reader), label(writer)];
  switch (clash.kind) {
    case "MISSING_UNION_BRANCH":
      return `The writer may write ${writes}, and no branch of the reader's union takes it.`;
    case "NAME_MISMATCH":
      return `The writer's name, ${writer.name}, is neither the reader's, ${reader.name}, nor one of its aliases.`;
    case "READER_FIELD_MISSING_DEFAULT_VALUE":
      return `The writer doesn't write the field ${clash.name}, and the reader has no default for it.`;
    case "MISSING_ENUM_SYMBOLS":
      return `The writer may write the symbol ${clash.name}, which the reader's enum lacks, and it has no default.`;
    case "FIXED_SIZE_MISMATCH":
      return `The writer writes ${meant(writer).size} bytes, and the reader reads ${meant(reader).size}.`;
    case "TYPE_MISMATCH":
      return `The writer writes ${writes}, and the reader can't read that as ${reads}.`;
    default:
      return clash.kind;
  }
}
