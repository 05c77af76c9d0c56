// Elements of the page. A string becomes text, never markup.

export const by = (id) => document.getElementById(id);

/** An element with attributes and children. A child that is a string becomes text. */
export function element(name, attributes, ...children) {
  const it = document.createElement(name);
  for (const [key, value] of Object.entries(attributes)) {
    if (value !== undefined && value !== false) it.setAttribute(key, value === true ? "" : value);
  }
  it.append(...children.filter((child) => child !== undefined));
  return it;
}

/** A stranger's text: whatever direction it is written in, what is beside it stays in its place. */
export function text(string) {
  return element("bdi", {}, string);
}

export function button(words, action, attributes = {}) {
  const it = element("button", { type: "button", ...attributes }, ...[words].flat());
  it.addEventListener("click", action);
  return it;
}

/** A text with its label in front. */
export function labelled(label, control, attributes = {}) {
  return element("label", attributes, element("span", {}, label), control);
}

/** A choice of a few: `options` are pairs of a value and words. Calls `chosen` with the value. */
export function choiceOf(legend, name, options, value, chosen) {
  const one = ([key, words]) => {
    const input = element("input", { type: "radio", name, value: key, checked: key === value });
    input.addEventListener("change", () => chosen(key));
    return element("label", { class: "choice" }, input, " ", ...[words].flat());
  };
  return element("fieldset", { class: "choices" }, element("legend", {}, legend), ...options.map(one));
}

/** A button that copies what `make` gives, and says so beside itself. Where the page has several, `name` tells them apart. */
export function copyButton(words, make, name) {
  const told = element("span", { class: "told", role: "status" });
  const copy = async () => {
    const string = make();
    if (string === undefined) return say(told, "Too long for a link.");
    say(told, (await putOnClipboard(string)) ? "Copied." : "The browser doesn't allow copying.");
  };
  return element("span", { class: "copy" }, button(words, copy, { "aria-label": name }), told);
}

function say(told, words) {
  told.textContent = words;
  setTimeout(() => told.replaceChildren(), 4000);
}

/** Without TLS a browser has no `clipboard`; then a field's text is copied. */
async function putOnClipboard(string) {
  try {
    await navigator.clipboard.writeText(string);
    return true;
  } catch {
    const field = element("textarea", { class: "away", "aria-hidden": "true" });
    const before = document.activeElement;
    field.value = string;
    document.body.append(field);
    field.select();
    const done = document.execCommand("copy");
    field.remove();
    before?.focus();
    return done;
  }
}

/** Has the browser keep a text as a file. */
export function download(name, string) {
  const url = URL.createObjectURL(new Blob([string], { type: "application/json" }));
  element("a", { href: url, download: name }).click();
  setTimeout(() => URL.revokeObjectURL(url), 60_000);
}
