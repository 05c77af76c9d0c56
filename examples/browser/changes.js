// What changed from one schema to a later one. Nothing here touches the page.
import { label, meant, NAMED } from "./avro.js";

/**
 * What changed from one schema to a later one: rows with `sign` (+, -, ~), `where` and `what`, and for ~ `from` and `to`. `old` and
 * `young` are the fields, symbols or types of both that a row is about.
 */
export function differences(before, after) {
  const comparison = new Comparison();
  comparison.compareTypes("", before, after);
  return comparison.rows;
}

const KINDS = [["-", "field", "removed"], ["-", "symbol", "removed"], ["+", "field", "added"], ["+", "symbol", "added"], ["~", "type", "changed"]];
const NAMED_PLACES = 5; // places that a sum names

/**
 * The rows in a few sums, what is lost first: each has `words`, such as "1 field removed", the `places` in words, and whether something is
 * `lost`.
 */
export function sumsOf(rows) {
  const kindOf = (row) => KINDS.find(([sign, what]) => sign === row.sign && what === row.what);
  const sums = KINDS.map((kind) => {
    const [sign, what, done] = kind;
    const placeOf = ({ where, from, to }) => (what === "symbol" ? [where, from ?? to].filter(Boolean).join(" ") : where);
    return { ...sumOf(rows.filter((row) => kindOf(row) === kind), what, done, placeOf), lost: sign === "-" };
  });
  const others = sumOf(rows.filter((row) => !kindOf(row)), "other change", "", ({ where, what }) => (where ? `${where}: ${what}` : what));
  return [...sums, { ...others, lost: false }].filter(({ count }) => count > 0);
}

function sumOf(rows, what, done, placeOf) {
  const places = rows.map(placeOf).filter(Boolean);
  const more = places.length > NAMED_PLACES ? " and others" : "";
  const words = `${rows.length} ${what}${rows.length === 1 ? "" : "s"} ${done}`.trim();
  return { count: rows.length, words, places: places.slice(0, NAMED_PLACES).join(", ") + more };
}

class Comparison {
  rows = [];
  seen = new Map(); // which types were compared with which, so that a type inside itself ends

  change(where, what, from, to, old, young) {
    if (from !== to) this.rows.push({ sign: "~", where, what, from, to, old, young });
  }

  compareTypes(where, before, after) {
    const [old, young] = [branches(before), branches(after)];
    if (String(old.map(identity)) !== String(young.map(identity))) this.change(where, "type", label(before), label(after), before, after);
    for (const [one, other] of pairsOf(old, young)) this.compareInside(where, one, other);
  }

  compareInside(where, before, after) {
    if (this.seen.get(after)?.has(before)) return;
    this.seen.set(after, (this.seen.get(after) ?? new Set()).add(before));
    this.compareSaid(where, before, after, after.kind);
    if (after.kind === "record") this.compareFields(where, before, after);
    if (after.kind === "enum") this.compareSymbols(where, before, after);
    if (after.kind === "fixed") this.change(where, "size", before.size, after.size, before, after);
    if (after.kind === "array") this.compareTypes(`${where}[]`, before.items, after.items);
    if (after.kind === "map") this.compareTypes(`${where}{}`, before.values, after.values);
  }

  compareFields(where, one, other) {
    const [before, after] = [one.fields, other.fields];
    const place = (field) => (where ? `${where}.${field.name}` : field.name);
    const old = new Map(before.map((field) => [field.name, field]));
    const taken = new Map(after.map((field) => [field, old.get(field.name)]));
    for (const { name } of after) old.delete(name);
    for (const field of after) {
      const alias = taken.get(field) ? undefined : field.aliases.find((name) => old.has(name));
      if (alias !== undefined) taken.set(field, old.get(alias)) && old.delete(alias);
    }
    for (const [field, was] of taken) {
      if (was) this.compareField(place(field), was, field);
      else this.rows.push({ sign: "+", where: place(field), what: "field", to: inWords(field), young: field });
    }
    for (const field of old.values()) this.rows.push({ sign: "-", where: place(field), what: "field", from: inWords(field), old: field });
    this.compareOrder(where, before.filter((field) => !old.has(field.name)), [...taken.values()].filter(Boolean), one, other);
  }

  compareField(where, before, after) {
    this.change(where, "name", before.name, after.name, before, after);
    this.compareSaid(where, before, after);
    this.compareTypes(where, before.type, after.type);
  }

  compareOrder(where, before, after, old, young) {
    if (before.every((field, place) => field === after[place])) return;
    this.change(where, "order of fields", namesOf(before), namesOf(after), old, young);
  }

  compareSymbols(where, before, after) {
    const [old, young] = [new Set(before.symbols), new Set(after.symbols)];
    for (const it of after.symbolParts) if (!old.has(it.name)) this.rows.push({ sign: "+", where, what: "symbol", to: it.name, young: it });
    for (const it of before.symbolParts) if (!young.has(it.name)) this.rows.push({ sign: "-", where, what: "symbol", from: it.name, old: it });
  }

  /** An enum's default isn't that of the field: its `kind` says so. */
  compareSaid(where, before, after, kind) {
    const [old, young] = [new Map(before.said), new Map(after.said)];
    for (const member of new Set([...old.keys(), ...young.keys()])) {
      const what = kind === "enum" && member === "default" ? "enum's default" : member;
      this.change(where, what, written(old, member), written(young, member), before, after);
    }
    this.change(where, "aliases", namesOrNone(before.aliases), namesOrNone(after.aliases), before, after);
  }
}

function branches(type) {
  return (type.kind === "union" ? type.branches : [type]).map(meant);
}

/** What tells a union's branches apart. */
function identity(type) {
  return NAMED.has(type.kind) ? `${type.kind} ${type.name}` : type.kind;
}

/** Pairs types of one identity, and then those that are left of one kind: a record with another name, say. */
function pairsOf(before, after) {
  const pairs = [];
  for (const key of [identity, (type) => type.kind]) {
    const left = new Map(before.map((type) => [key(type), type]));
    for (const type of after) {
      const partner = left.get(key(type));
      if (partner && left.delete(key(type))) pairs.push([partner, type]);
    }
    before = before.filter((type) => !pairs.some(([one]) => one === type));
    after = after.filter((type) => !pairs.some(([, other]) => other === type));
  }
  return pairs;
}

function inWords(field) {
  const preset = new Map(field.said);
  return label(field.type) + (preset.has("default") ? `, default ${written(preset, "default")}` : "");
}

function written(said, member) {
  return said.has(member) ? JSON.stringify(said.get(member)) : "none";
}

function namesOf(fields) {
  return fields.map((field) => field.name).join(", ");
}

function namesOrNone(names) {
  return names?.join(", ") || "none";
}
