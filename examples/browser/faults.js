// Why a text isn't an Avro schema. The registry judges, and says only that it isn't one: this looks for the reason, by the rules of
// docs/FORMATS.md.

const PRIMITIVES = new Set(["null", "boolean", "int", "long", "float", "double", "bytes", "string"]);
const NAME = /^[A-Za-z_][A-Za-z0-9_]*$/;
const MOST_BYTES = 1_048_576;
const DEEPEST = 127;
const LONE = /(^|[^\\])(\\\\)*\\ud[89a-f]/; // how JSON is written with a surrogate alone

class Fault extends Error {}

const show = (value) => JSON.stringify(value) ?? "nothing";

/** A sentence that says why, or undefined where no reason is found. */
export function faultOf(text) {
  try {
    if (new TextEncoder().encode(text).length > MOST_BYTES) throw new Fault("The text is longer than 1,048,576 bytes.");
    const json = readJson(text);
    checkNumbers(text);
    checkDepth(json, 1);
    if (LONE.test(JSON.stringify(json))) throw new Fault("The text has half of a character: a surrogate without its partner.");
    const defaults = []; // checked once all types are known
    checkType(json, { path: "", namespace: "", names: new Map(), defaults });
    for (const check of defaults) check();
    return undefined;
  } catch (error) {
    return error instanceof Fault ? error.message : undefined;
  }
}

function readJson(text) {
  if (text.trim() === "") throw new Fault("The text is empty.");
  try {
    return JSON.parse(text);
  } catch (error) {
    const bare = /^[A-Za-z_][\w.]*$/.test(text.trim()) ? ` A type's name is written in quotes: ${show(text.trim())}.` : "";
    const message = error.message.replaceAll(/\p{Surrogate}/gu, "\ufffd"); // it may cut a character in two
    throw new Fault(`This isn't JSON. The browser says: ${message}.${bare}`);
  }
}

/** Numbers as they are written, outside of strings. */
function checkNumbers(text) {
  for (const [token] of text.matchAll(/"(?:[^"\\]|\\.)*"|-?\d[\d.eE+-]*/gs)) {
    if (token.startsWith('"')) continue;
    const isWhole = /^-?\d+$/.test(token) && token !== "-0";
    if (!isWhole) throw new Fault(`The number ${token} has a fraction, an exponent or the form -0, which the registry doesn't take.`);
    if (BigInt(token) < -(2n ** 63n) || BigInt(token) >= 2n ** 64n) throw new Fault(`The number ${token} is out of range.`);
  }
}

function checkDepth(json, depth) {
  if (json === null || typeof json !== "object") return;
  if (depth > DEEPEST) throw new Fault(`Arrays and objects are nested more than ${DEEPEST} deep.`);
  for (const part of Object.values(json)) checkDepth(part, depth + 1);
}

/** Throws a fault at a place of the schema. */
function refuse({ path }, words) {
  throw new Fault(path === "" ? `${words[0].toUpperCase()}${words.slice(1)}` : `At ${path}: ${words}`);
}

const within = (at, path) => ({ ...at, path: at.path === "" ? path : `${at.path}${path.startsWith("[") ? "" : " > "}${path}` });

/** Checks a type, and gives what a default is checked against. */
function checkType(json, at) {
  if (typeof json === "string") return checkUse(json, at);
  if (Array.isArray(json)) return checkUnion(json, at);
  if (json === null || typeof json !== "object") refuse(at, `a type is a name, a union or an object, and not ${show(json)}.`);
  if (json.type === undefined) refuse(at, 'the member "type" is missing.');
  if (typeof json.type !== "string") return checkType(json.type, at);
  const checks = { record: checkRecord, enum: checkEnum, fixed: checkFixed, array: checkArray, map: checkMap };
  const check = Object.hasOwn(checks, json.type) ? checks[json.type] : undefined;
  if (json.type === "error") refuse(at, 'the type "error" isn\'t one of a schema.');
  return check ? check(json, at) : checkUse(json.type, at);
}

function checkUse(name, at) {
  if (PRIMITIVES.has(name)) return { kind: name };
  const known = at.names.get(fullName(name, at.namespace)) ?? at.names.get(name);
  if (!known) refuse(at, `the type ${show(name)} is none of Avro's, and no type of this name is defined before.`);
  return known;
}

const fullName = (name, namespace) => (name.includes(".") || namespace === "" ? name : `${namespace}.${name}`);

function checkUnion(json, at) {
  const branches = json.map((branch, place) => {
    if (Array.isArray(branch)) refuse(within(at, `[${place}]`), "a union holds another union.");
    return checkType(branch, within(at, `[${place}]`));
  });
  if (branches.some((type) => type.kind === "union")) refuse(at, "a union holds another union.");
  const kinds = branches.map((type) => type.name ?? type.kind);
  const twice = kinds.find((kind, place) => kinds.indexOf(kind) < place);
  if (twice) refuse(at, `the union has ${twice} twice.`);
  return { kind: "union", branches };
}

const checkArray = (json, at) => ({ kind: "array", items: checkPart(json, "items", at) });
const checkMap = (json, at) => ({ kind: "map", values: checkPart(json, "values", at) });

function checkPart(json, member, at) {
  if (json[member] === undefined) refuse(at, `the ${json.type} has no member "${member}".`);
  return checkType(json[member], within(at, member));
}

// ---- types with names

function define(json, at, type) {
  if (typeof json.name !== "string") refuse(at, `the ${json.type} has no "name".`);
  const parts = json.name.split(".");
  const wrong = parts.find((part) => !NAME.test(part));
  if (wrong !== undefined) refuse(at, `the name ${show(json.name)} isn't one: letters, digits and _, and no digit first.`);
  if (PRIMITIVES.has(parts.at(-1))) refuse(at, `the name ${show(json.name)} is that of a primitive type.`);
  const name = fullName(json.name, typeof json.namespace === "string" ? json.namespace : at.namespace);
  checkAliases(json, at);
  if (at.names.has(name)) refuse(at, `the name ${name} is defined twice.`);
  Object.assign(type, { kind: json.type, name });
  at.names.set(name, type);
  return { ...at, namespace: name.slice(0, Math.max(name.lastIndexOf("."), 0)) };
}

/** A type's aliases may be full names, a field's may not. */
function checkAliases({ aliases = [] }, at, isField = false) {
  const isName = (alias) => (isField ? [alias] : alias.split(".")).every((part) => NAME.test(part));
  const right = Array.isArray(aliases) && aliases.every((alias) => typeof alias === "string" && isName(alias));
  if (!right) refuse(at, "aliases are a list of names.");
}

function checkRecord(json, at) {
  const type = {};
  const inside = define(json, at, type);
  if (!Array.isArray(json.fields)) refuse(at, `the record ${show(json.name)} has no list "fields".`);
  type.fields = [];
  json.fields.forEach((field, place) => type.fields.push(checkField(field, within(inside, `fields[${place}]`), type.fields)));
  return type;
}

function checkField(field, at, before) {
  if (field === null || typeof field !== "object" || Array.isArray(field)) refuse(at, "a field is an object with a name and a type.");
  if (typeof field.name !== "string") refuse(at, 'the field has no "name".');
  const here = { ...at, path: `${at.path} (${field.name})` };
  if (!NAME.test(field.name)) refuse(here, `the name ${show(field.name)} isn't one: letters, digits and _, and no digit first.`);
  if (before.some((it) => it.name === field.name)) refuse(here, "another field has the same name.");
  if (field.type === undefined) refuse(here, 'the field has no "type".');
  checkAliases(field, here, true);
  const type = checkType(field.type, here);
  if ("default" in field) at.defaults.push(() => checkDefault(field, type, here));
  return { name: field.name, type, preset: "default" in field };
}

function checkEnum(json, at) {
  const type = {};
  define(json, at, type);
  const { symbols } = json;
  if (!Array.isArray(symbols)) refuse(at, `the enum ${show(json.name)} has no list "symbols".`);
  const wrong = symbols.find((symbol) => typeof symbol !== "string" || !NAME.test(symbol));
  if (wrong !== undefined) refuse(at, `the symbol ${show(wrong)} isn't a name: letters, digits and _, and no digit first.`);
  const twice = symbols.find((symbol, place) => symbols.indexOf(symbol) < place);
  if (twice !== undefined) refuse(at, `the symbol ${show(twice)} is there twice.`);
  const isRight = json.default === undefined || symbols.includes(json.default);
  if (!isRight) refuse(at, `the enum's default ${show(json.default)} is none of its symbols.`);
  return type;
}

function checkFixed(json, at) {
  const type = {};
  define(json, at, type);
  const right = Number.isInteger(json.size) && json.size >= 0 && json.size < 2 ** 31;
  if (!right) refuse(at, `the fixed type ${show(json.name)} has no "size" that is a whole number.`);
  return type;
}

// ---- defaults

function checkDefault(field, type, at) {
  if (isValue(field.default, type)) return;
  const first = type.kind === "union" ? ", the union's first branch" : "";
  const wanted = type.kind === "union" ? type.branches[0] : type;
  refuse(at, `the default ${show(field.default)} isn't a value of ${wanted?.name ?? wanted?.kind ?? "an empty union"}${first}.`);
}

const isObject = (value) => value !== null && typeof value === "object" && !Array.isArray(value);

const VALUES = {
  null: (value) => value === null,
  boolean: (value) => typeof value === "boolean",
  int: (value) => Number.isInteger(value) && value >= -(2 ** 31) && value < 2 ** 31,
  long: (value) => Number.isInteger(value) && value >= -(2 ** 63) && value <= 2 ** 63,
  float: (value) => typeof value === "number",
  double: (value) => typeof value === "number",
  string: (value) => typeof value === "string",
  bytes: (value) => typeof value === "string",
  fixed: (value) => typeof value === "string",
  enum: (value) => typeof value === "string",
  array: (value, { items }) => Array.isArray(value) && value.every((it) => isValue(it, items)),
  map: (value, { values }) => isObject(value) && Object.values(value).every((it) => isValue(it, values)),
  union: (value, { branches }) => branches.length > 0 && isValue(value, branches[0]),
  record: (value, { fields }) => isObject(value) && fields.every((field) => hasField(value, field)),
};

const hasField = (value, { name, type, preset }) => (Object.hasOwn(value, name) ? isValue(value[name], type) : preset);

const isValue = (value, type) => VALUES[type.kind](value, type);
