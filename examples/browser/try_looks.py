"""The parts of try.py about how the page looks, and for whom: widths, light and dark, names for screen readers, contrast."""
from try_page import has, same
from try_registry import CLASHES

# The texts whose contrast with what is behind them is below 4.5 to 1.
PALE = """
  const light = (colour) => {
    const [r, g, b] = colour.match(/[\\d.]+/g).map((it) => (it / 255 <= 0.04045 ? it / 255 / 12.92 : ((it / 255 + 0.055) / 1.055) ** 2.4));
    return 0.2126 * r + 0.7152 * g + 0.0722 * b + 0.05;
  };
  const behind = (it) => {
    const colour = it ? getComputedStyle(it).backgroundColor : "rgb(255, 255, 255)";
    return colour === "rgba(0, 0, 0, 0)" ? behind(it.parentElement) : colour;
  };
  const pale = new Set();
  for (const it of document.querySelectorAll("body *")) {
    const speaks = [...it.childNodes].some((node) => node.nodeType === 3 && node.data.trim());
    if (!speaks || !it.checkVisibility() || it.closest(":disabled, option, noscript")) continue;
    const [one, other] = [light(getComputedStyle(it).color), light(behind(it))];
    const contrast = Math.max(one, other) / Math.min(one, other);
    if (contrast < 4.5) pale.add(`${it.tagName} ${it.className} ${contrast.toFixed(2)}: ${it.textContent.slice(0, 30)}`);
  }
  return [...pale]"""

SIZES = [("desk", 1300, 1500), ("tablet", 800, 1100), ("phone", 390, 844)]


def try_access(page, where, inside=""):
    """What is behind a question has no names meanwhile, so only what is `inside` is looked at."""
    for selector in ["input", "textarea", "select", "button", "summary", "#subjects a", "nav", "article", "pre", "[role=tree]", "[role=treeitem]", "dialog"]:
        seen = page.run("return [...document.querySelectorAll(arguments[0])].filter((it) => it.checkVisibility()).slice(0, 12)", f"{inside} {selector}")
        unnamed = [page.run("return arguments[0].outerHTML.slice(0, 80)", it) for it in seen if page.browser.name_of(it).strip() == ""]
        same(f"{selector} without a name, {where}", [], unnamed)
    names = [page.browser.name_of(it) for it in page.run("return [...document.querySelectorAll(arguments[0])].filter((it) => it.checkVisibility())", f"{inside} button")]
    same(f"buttons with one name, {where}", [], [name for place, name in enumerate(names) if name in names[:place]])
    levels = page.run("return [...document.querySelectorAll('h1, h2, h3, h4')].filter((it) => it.checkVisibility() && !it.closest('dialog')).map((it) => Number(it.tagName[1]))")
    same(f"headings that leave out a level, {where}", [], [pair for pair in zip(levels, levels[1:]) if pair[1] > pair[0] + 1])
    same(f"ids that are there twice, {where}", [], page.run("const ids = [...document.querySelectorAll('[id]')].map((it) => it.id); return ids.filter((id, place) => ids.indexOf(id) < place)"))
    try_contrast(page, where)


def try_contrast(page, where):
    same(f"text that is too pale, {where}", [], page.run(PALE))


def try_width(page, where):
    wide, there = page.run("return [document.documentElement.scrollWidth, document.documentElement.clientWidth]")
    same(f"{where}: its width", True, wide <= there)


def try_looks(page):
    """In the light and in the dark, at a desk, on a tablet and on a phone."""
    for scheme in ["light", "dark"]:
        page.browser.scheme(scheme)
        for size, width, height in SIZES:
            page.browser.size(width, height)
            look_at(page, f"{scheme}-{size}", scheme == "light" or size == "phone")
    dark = page.run("return getComputedStyle(document.body).backgroundColor")
    same("the dark is dark", True, all(int(it) < 60 for it in dark.strip("rgb()").split(",")))
    page.show("subject=orders")
    page.until("a subject on a phone", lambda: page.text("nav") == "" and page.text("#versions") != "")
    page.run("scrollTo(0, 0)")
    page.click("#subject .back")
    page.until("the way back on a phone", lambda: page.text("nav") != "" and page.text("main") == "")
    page.browser.scheme("light")
    page.browser.size(1300, 1500)


def look_at(page, where, names):
    page.show("")
    page.until("the list", lambda: page.text("#subjects") != "")
    try_width(page, f"the list, {where}")
    page.picture(f"{where}-subjects")
    subject, schema, against, *_ = CLASHES[0]
    for form in ["texts", "trees", "list"]:
        page.show(f"subject=orders&version=3&since=2&as={form}")
        page.until(f"the form {form}", lambda: page.is_at(3) and page.run("return document.getElementById('subject-body').dataset.form") == form)
        try_width(page, f"{form}, {where}")
        try_contrast(page, f"{form}, {where}")
        page.run("document.getElementById('difference').scrollIntoView({block: 'start'})")
        page.picture(f"{where}-{form}")
    page.check(schema, against)
    try_width(page, f"a subject, {where}")
    page.run("scrollTo(0, 0)")
    page.picture(f"{where}-subject")
    page.run("document.querySelector('#check .clash').scrollIntoView({block: arguments[0]})", "start" if "phone" in where else "end")
    page.picture(f"{where}-clash")
    try_access(page, where) if names else try_contrast(page, where)
    page.button("Change level…", "#subject-tools")
    page.asked_question("Change the compatibility level of ")
    try_width(page, f"a question, {where}")
    try_access(page, f"a question, {where}", "dialog") if names else try_contrast(page, f"a question, {where}")
    page.picture(f"{where}-question")
    page.button("Cancel", "#question")


def take_picture(page):
    """The picture of docs/."""
    page.browser.size(1300, 1750)
    page.show("subject=orders&version=3")
    page.until("the subject", lambda: page.is_at(3))
    page.run("document.querySelector('#check textarea').rows = 4; document.getElementById('done').replaceChildren()")
    page.check(CLASHES[0][1])
    page.run("scrollTo(0, 0)")
    page.picture("page")
    page.browser.size(1300, 1500)
