// Two texts side by side, line by line.
import { button, element } from "./elements.js";

const AROUND = 3; // equal lines that are shown before and after what differs
const MOST = 4_000_000; // pairs of lines that are compared one by one

/** Pairs of lines, `{old, young}`, each a line's place in its text; one of them undefined where the other has no partner. */
export function pairLines(before, after) {
  let head = 0;
  while (head < before.length && head < after.length && before[head] === after[head]) head += 1;
  let tail = 0;
  while (tail < before.length - head && tail < after.length - head && before.at(-1 - tail) === after.at(-1 - tail)) tail += 1;
  const [ends, other] = [before.length - tail, after.length - tail];
  const equal = (count, old, young) => Array.from({ length: count }, (_, step) => ({ old: old + step, young: young + step }));
  return [...equal(head, 0, 0), ...pairInside(before, after, head, ends, other), ...equal(tail, ends, other)];
}

function pairInside(before, after, head, ends, other) {
  const [height, width] = [ends - head, other - head];
  if (height * width > MOST) return besideEachOther(range(head, ends), range(head, other));
  const longest = longestCommon(before, after, head, height, width);
  const pairs = [];
  let [one, two, lost, added] = [0, 0, [], []];
  const flush = () => pairs.push(...besideEachOther(lost.splice(0), added.splice(0)));
  while (one < height || two < width) {
    const same = one < height && two < width && before[head + one] === after[head + two];
    if (same) flush(), pairs.push({ old: head + one++, young: head + two++ });
    else if (two === width || (one < height && longest[one + 1][two] >= longest[one][two + 1])) lost.push(head + one++);
    else added.push(head + two++);
  }
  flush();
  return pairs;
}

/** For each beginning inside both texts, how many lines what follows has in common. */
function longestCommon(before, after, head, height, width) {
  const longest = Array.from({ length: height + 1 }, () => new Uint32Array(width + 1));
  for (let one = height - 1; one >= 0; one -= 1) {
    for (let two = width - 1; two >= 0; two -= 1) {
      const same = before[head + one] === after[head + two];
      longest[one][two] = same ? longest[one + 1][two + 1] + 1 : Math.max(longest[one + 1][two], longest[one][two + 1]);
    }
  }
  return longest;
}

const range = (from, to) => Array.from({ length: to - from }, (_, step) => from + step);

function besideEachOther(lost, added) {
  const length = Math.max(lost.length, added.length);
  return Array.from({ length }, (_, place) => ({ old: lost[place], young: added[place] }));
}

/** Both texts as a table. Equal lines far from what differs are behind a button. */
export function drawLines(before, after, names) {
  const texts = [before.split("\n"), after.split("\n")];
  const pairs = pairLines(...texts).map((pair) => ({ ...pair, same: isSame(pair, texts) }));
  const near = pairs.map((_, place) => pairs.slice(Math.max(0, place - AROUND), place + AROUND + 1).some((it) => !it.same));
  const head = element("tr", {}, ...names.map((name) => element("th", { scope: "col", colspan: 2 }, name)));
  const body = element("tbody", {});
  for (let place = 0; place < pairs.length; ) {
    let end = place;
    while (end < pairs.length && near[end] === near[place]) end += 1;
    const drawn = pairs.slice(place, end).map((pair) => drawPair(pair, texts));
    body.append(...(near[place] || drawn.length < 4 ? drawn : [behindButton(drawn)]));
    place = end;
  }
  const columns = ["number", "", "number", ""].map((kind) => element("col", { class: kind || undefined }));
  return element("table", { class: "lines" }, element("colgroup", {}, ...columns), element("thead", {}, head), body);
}

const isSame = ({ old, young }, [before, after]) => old !== undefined && young !== undefined && before[old] === after[young];

function drawPair(pair, [before, after]) {
  const cells = [...drawCell(pair.old, before, pair.same ? "" : "removed"), ...drawCell(pair.young, after, pair.same ? "" : "added")];
  return element("tr", { class: pair.same ? "same" : "other" }, ...cells);
}

function drawCell(place, lines, kind) {
  if (place === undefined) return [element("td", { class: "number" }), element("td", { class: "none" })];
  const sign = kind && element("span", { class: "sign" }, kind === "added" ? "+" : "\u2212");
  return [element("td", { class: "number" }, `${place + 1}`), element("td", { class: kind || undefined }, sign, lines[place])];
}

function behindButton(drawn) {
  const words = `${drawn.length} equal lines: show`;
  const row = element("tr", { class: "gap" });
  row.append(element("td", { colspan: 4 }, button(words, () => row.replaceWith(...drawn))));
  return row;
}
