"""The parts of try.py that write: each command behind its question, and what the registry refuses."""
import json
from urllib.parse import quote

from try_page import DOWN, ENTER, ESCAPE, SPACE, TAB, has, same
from try_registry import EVIL, FOLLOWS, HOSTILE, NARROWER, field, record

FIRST = record("New", field("a", "int"))
SECOND = record("New", field("a", "int"), field("b", "int", default=0))
CLASHING = record("New", field("a", "string"))
ODD = "odd/näme " + EVIL


def begin_writing(page):
    page.stand.settings({"name": "Production", "colour": "red", "write": True})
    page.load()
    page.until_text("h1", "Production")
    page.until("the list", lambda: page.text("#shown") != "")


def try_new_subject(page):
    page.button("New subject")
    page.until_text("#fresh-title", "New subject")
    page.write("#fresh-name", ODD)
    has("what isn't a schema", 'The type "Nothing" is none', page.check('"Nothing"', form="#fresh-check"))
    page.write("#fresh-check textarea", json.dumps(FIRST))
    page.button("Refresh")
    page.until_text("#done", "The list is up to date.")
    same("what was typed stays", [ODD, json.dumps(FIRST)], [page.value("#fresh-name"), page.value("#fresh-check textarea")])
    page.picture("fresh")
    page.button("Register…", "#fresh-check")
    words = page.asked_question("Register this schema in ")
    has("what will happen", "It makes a new subject, and is its version 1.", words)
    has("whose name", ODD, page.text("#question-title"))
    page.press(ESCAPE)
    page.until("no question", lambda: page.text("#question") == "")
    page.button("Register…", "#fresh-check")
    page.asked_question("Register this schema in ")
    page.yes("Registered as version 1, with schema id ")
    page.until("it is shown", lambda: page.text("#subject-title") == ODD and page.is_at(1))
    same("it is in the list", [ODD], page.texts("#subjects a[aria-current]"))
    same("the keys are at its title", "subject-title", page.focused())
    page.picture("registered")


def try_registering(page):
    page.write("#check textarea", json.dumps(CLASHING))
    page.button("Register…", "#check")
    page.until_text("#check .verdict", "Not compatible. version 1, BACKWARD, at /field:a: TYPE_MISMATCH")
    same("no question", "", page.text("#question"))
    page.write("#check textarea", json.dumps(SECOND))
    page.button("Register…", "#check")
    words = page.asked_question("Register this schema in ")
    has("what will happen", "It is compatible, and becomes version 2.", words)
    has("what changes", "Against version 1, the latest: 1 field added (b).", words)
    page.picture("question")
    page.yes("Registered as version 2, with schema id ")
    page.until("it is shown", lambda: page.is_at(2))
    same("no verdict is left", "", page.text("#check .verdict"))
    page.write("#check textarea", json.dumps(FIRST))
    page.button("Register…", "#check")
    has("what would be lost", "Against version 2, the latest: 1 field removed (b).", page.asked_question("Register this schema in "))
    same("it is marked", ["1 field removed"], page.texts("#question .lost"))
    page.yes("The subject has this schema already: version 1, schema id ")


def try_late_clash(page):
    """Somebody else registers between the question and its answer: the registry refuses, and the clash is drawn."""
    page.write("#check textarea", json.dumps(record("New", field("a", "int"), field("c", "int", default=0))))
    page.button("Register…", "#check")
    page.asked_question("Register this schema in ")
    page.stand.register(ODD, record("New", field("a", "int"), field("c", "string", default="")))
    page.click("#question-yes")
    page.until_text("#question-answer", "The registry refuses: 409 Incompatible with version 3, BACKWARD, at /field:c: TYPE_MISMATCH")
    page.until("the clash", lambda: page.texts("#question-answer mark.broken") == ["c: int", "c: string"])
    page.picture("refusal")
    page.button("Cancel", "#question")
    page.button("Refresh")
    page.until("what the other registered", lambda: page.texts("#versions a") == ["3", "2", "1"])


def try_levels(page):
    page.button("Change level…", "#subject-tools")
    words = page.asked_question("Change the compatibility level of ")
    has("what a level means", "Every version has to read what a new schema writes.", words)
    has("clearing it", "it follows the one for all, BACKWARD.", words)
    page.picture("level")
    page.click("#question input[value=FULL_TRANSITIVE]")
    page.yes("The compatibility level is now FULL_TRANSITIVE.")
    has("it is shown", "Compatibility level FULL_TRANSITIVE, of its own", page.text("#rules"))
    page.button("Change level…", "#subject-tools")
    page.asked_question("Change the compatibility level of ")
    page.click("#question input[value='']")
    page.yes("Cleared its own compatibility level: it is BACKWARD, as for all subjects.")
    page.button("Change level…", "#subject-tools")
    page.asked_question("Change the compatibility level of ")
    page.click("#question input[value='']")
    page.click("#question-yes")
    page.until_text("#question-answer", "The registry refuses: 40408 Subject has no level")
    page.button("Cancel", "#question")
    page.button("Change level…", "header")
    has("whom it concerns", "Subjects with one of their own keep it.", page.asked_question("Change the compatibility level for all subjects?"))
    page.click("#question input[value=FULL]")
    page.yes("The compatibility level is now FULL.")
    same("it is for all", "All subjects: compatibility level FULL · mode READWRITE", page.text("#defaults"))
    has("and for this one", "Compatibility level FULL, the same as for all subjects", page.text("#rules"))
    page.stand.ask("PUT", "/config", {"compatibility": "BACKWARD"})


def try_modes(page):
    page.button("Change mode…", "#subject-tools")
    page.asked_question("Change the mode of ")
    page.click("#question input[value=IMPORT]")
    page.click("#question-yes")
    page.until_text("#question-answer", "The registry refuses: 42205 Operation not permitted: scope is not empty")
    page.click("#question input[value=READONLY]")
    page.yes("The mode is now READONLY.")
    page.button("Delete subject…")
    page.asked_question("Delete the subject ")
    page.click("#question-yes")
    page.until_text("#question-answer", "The registry refuses: 42205 Operation not permitted: READONLY")
    page.button("Cancel", "#question")
    page.button("Change mode…", "#subject-tools")
    page.asked_question("Change the mode of ")
    page.click("#question input[value='']")
    page.yes("Cleared its own mode: it is READWRITE, as for all subjects.")


def try_version_deletes(page):
    page.show(f"subject={page.run('return encodeURIComponent(arguments[0])', ODD)}&version=1")
    page.until("version 1", lambda: page.is_at(1))
    page.button("Delete version…")
    has("what will happen", "can still be read: the id keeps its schema", page.asked_question("Delete version 1 of "))
    same("the keys are where nothing happens", "question-no", page.focused())
    page.yes("Deleted version 1.")
    same("it is shown", ["3", "2", "1 deleted"], page.texts("#versions a"))
    page.button("Register again…")
    words = page.asked_question("Register version 1 of ")
    has("what will happen", "it becomes version 4, with its old schema id ", words)
    has("what may happen", "the registry refuses (409)", words)
    page.picture("restore")
    page.click("#question-yes")
    page.until("done or refused", lambda: page.text("#question-answer").startswith("The registry refuses") or page.text("#done").startswith("Registered as version 4"))
    has("it is done", "Registered as version 4, with schema id ", page.text("#done"))
    page.until("the new version", lambda: page.is_at(4) and page.texts("#versions a") == ["4", "3", "2", "1 deleted"])


def try_refused_restore(page):
    """A deleted version that the level forbids: 409, with the clash."""
    subject = "restored"
    page.stand.register(subject, FIRST)
    page.stand.ask("DELETE", f"/subjects/{subject}")
    page.stand.register(subject, CLASHING)
    page.stand.await_follower(f"/subjects/{subject}/versions", [2])
    page.show(f"subject={subject}&version=1")
    page.until("it is shown", lambda: page.is_at(1))
    page.button("Register again…")
    page.asked_question("Register version 1 of ")
    page.click("#question-yes")
    page.until_text("#question-answer", "The registry refuses: 409 Incompatible with version 2, BACKWARD, at /field:a: TYPE_MISMATCH")
    page.until("the clash", lambda: page.texts("#question-answer mark.broken") == ["a: int", "a: string"])
    page.picture("restore-refused")
    page.button("Cancel", "#question")


def try_deletes_for_good(page):
    page.button("Delete for good…")
    has("what will happen", "This can't be undone.", page.asked_question("Delete version 1 of "))
    same("the keys are in the field", "question-name", page.focused())
    page.press("restore", ENTER)
    page.until_text("#question-answer", "This isn't the subject's name.")
    page.picture("for-good")
    page.press("d", ENTER)
    page.until_text("#done", "Deleted version 1 for good.")
    page.until("what is left", lambda: page.texts("#versions a") == ["2"])
    page.button("Delete subject…")
    has("what will happen", "Its one version is deleted.", page.asked_question("Delete the subject restored?"))
    page.yes("Deleted the subject restored.")
    same("in the list", ["restored deleted"], page.texts("#subjects a[aria-current]"))
    page.button("Delete subject for good…")
    page.asked_question("Delete the subject restored for good?")
    page.write("#question-name", "restored")
    page.yes("Deleted the subject restored for good.")
    same("in the list no more", [], [it for it in page.texts("#subjects a") if it.startswith("restored")])
    same("no subject is shown", "", page.text("#subject"))


def try_unknown(page):
    """A command without an answer: it isn't known whether it was done."""
    page.open("orders", 3)
    page.button("Delete subject…")
    page.asked_question("Delete the subject orders?")
    page.stand.end("writer")
    page.click("#question-yes")
    page.until_text("#question-answer", "The registry can't be reached: the web server answers 502.")
    has("what to do", "It isn't known whether this was done.", page.text("#question-answer"))
    page.picture("unknown")
    page.stand.start_writer()
    page.button("Cancel", "#question")
    page.stand.end("tail", "follower")
    page.stand.start_follower()


def try_evil_commands(page):
    page.open(EVIL, 2)
    for words, title in [("Delete subject…", "Delete the subject "), ("Delete version…", "Delete version 2 of "), ("Change level…", "Change the compatibility level of ")]:
        page.button(words, "#subject-body")
        page.asked_question(title)
        has("the name in the question", EVIL, page.text("#question-title"))
        page.button("Cancel", "#question")
    page.show("new=" + page.run("return encodeURIComponent(arguments[0])", EVIL))
    page.until("a name in a link", lambda: page.value("#fresh-name") == EVIL)
    same("pictures and scripts in it", 0, page.count("img, body script, iframe, object"))


def try_hostile(page):
    """Strangers' texts everywhere: each is shown as it is, and none does anything."""
    for text in HOSTILE:
        schemas = [record("X", field("a", "string", default=text, doc=doc), doc=text, **{f"-{text}": text}) for doc in (text, "another")]
        for schema in schemas:
            page.stand.register(text, schema)
    page.button("Refresh")
    page.until_text("#done", "The list is up to date.")
    for text in HOSTILE:
        name = page.run("return encodeURIComponent(arguments[0])", text)
        page.show(f"subject={name}&version=2&since=1&as={name}&against={name}&check={name}")
        page.until(f"the subject {text[:40]!r}", lambda: page.run("return document.getElementById('subject-title').textContent") == text and page.is_at(2) and page.text("#check .verdict") not in ("", "Checking."))
        tree = page.run("return document.querySelector('#version .tree').textContent")
        has(f"the documentation of {text[:40]!r}", text, tree)
        same(f"the title of {text[:40]!r}", f"{text} · Production".split(), page.run("return document.title").split())
        same(f"what {text[:40]!r} put into the page", 0, page.count("img, svg, body script, iframe, object, base, body style, body meta, [onload], [onerror], [onfocus], [autofocus], body h1:not(:has(#name))"))
        same(f"links of {text[:40]!r} that lead elsewhere", [], page.run("return [...document.links].map((it) => it.getAttribute('href')).filter((it) => !it.startsWith('#'))"))
    for text in HOSTILE:
        page.stand.ask("DELETE", f"/subjects/{quote(text, safe='')}")
        page.stand.ask("DELETE", f"/subjects/{quote(text, safe='')}?permanent=true")


def try_by_keys(page):
    """try.md with the keyboard alone: a schema by its id, a compatible version, and a refusal."""
    page.load()
    page.until("the list", lambda: page.text("#shown") != "")
    page.run("document.body.focus(); document.activeElement.blur()")
    page.press(TAB)
    same("the first stop", "skip", page.focused())
    go_to(page, "identity-number", 4)
    page.press("4", ENTER)
    page.until_text("#identity-title", "Schema id 4")
    page.until("the version", lambda: page.texts("#identity-versions a") == ["orders, version 3"])
    try_frame(page, "identity-title")
    go_to(page, "orders, version 3", 2)
    page.press(ENTER)
    page.until("the version", lambda: page.is_at(3) and page.focused() != "subject-title")
    try_frame(page, "version-title")
    go_to(page, "Start from this version", 2)
    page.press(ENTER)
    same("where one types", "TEXTAREA", tag(page))
    page.press("\ue009a")
    page.paste(json.dumps(NARROWER))
    go_to(page, "Check compatibility", 2)
    page.press(ENTER)
    page.until_text("#check .verdict", "Not compatible. version 3, BACKWARD, at /field:lines/items/field:amount: TYPE_MISMATCH")
    go_back(page, "Start from version 3", 3)
    page.press(ENTER)
    same("where one types again", "TEXTAREA", tag(page))
    page.press("\ue009a")
    page.paste(json.dumps(FOLLOWS))
    go_to(page, "Register…", 3)
    page.press(SPACE)
    page.asked_question("Register this schema in orders?")
    same("the keys are at the answer", "question-yes", page.focused())
    page.press(ENTER)
    page.until_text("#done", "Registered as version 4, with schema id ")
    page.until("it is shown", lambda: page.is_at(4))


def tag(page):
    return page.run("return document.activeElement.tagName")


def try_frame(page, wanted):
    """After the Enter key what has the keys has a frame."""
    same("where the keys are", [wanted, "solid 3px"], [page.focused(), page.run("const it = getComputedStyle(document.activeElement); return `${it.outlineStyle} ${it.outlineWidth}`")])


def go_to(page, wanted, most, step=None):
    """Presses Tab until something has the keys."""
    for _ in range(most):
        (step or page.press)(TAB)
        if page.focused() == wanted:
            return
    same(f"the way to {wanted} in {most} steps", wanted, page.focused())


def go_back(page, wanted, most):
    go_to(page, wanted, most, page.browser.press_shifted)


def try_by_mouse(page):
    """The same with the mouse; what is typed is pasted."""
    page.load()
    page.until("the list", lambda: page.text("#shown") != "")
    page.browser.type(page.all("#identity-number")[0], "4")
    page.button("Find")
    page.until_text("#identity-title", "Schema id 4")
    page.until("the version", lambda: page.texts("#identity-versions a") == ["orders, version 3"])
    page.click("#identity-versions a")
    page.until("it is shown", lambda: page.is_at(3))
    page.click("#versions a")
    page.until("the latest", lambda: page.is_at(4))
    page.button("Start from version 4")
    text = page.value("#check textarea")
    page.write("#check textarea", text.replace('"fields": [', '"fields": [{"name": "size", "type": "string", "default": "none"},', 1))
    page.button("Register…", "#check")
    page.asked_question("Register this schema in orders?")
    page.yes("Registered as version 5, with schema id ")
