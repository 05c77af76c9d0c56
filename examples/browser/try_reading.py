"""The parts of try.py that only read: finding, taking along, comparing, states, versions, checks, and how it looks."""
import json, signal, time

from try_page import DOWN, END, ENTER, HOME, LEFT, RIGHT, TAB, UP, has, same
from try_registry import CLASHES, EVIL, FAULTS, FOLLOWS, MANY, NARROWER, ORDERS


def try_settings(page):
    """Without settings, or with those that aren't any, the page only reads."""
    for given in [None, "{", "[]", "null", {"write": "true", "name": 7}, {"name": "  ", "write": 1}]:
        page.stand.settings(given)
        page.load()
        page.until_text("#empty", "The registry has no subjects yet: the first schema that is registered makes one.")
        same(f"the name by {given}", "Schemas", page.text("h1"))
        same(f"no commands by {given}", [], [it for it in page.texts("button, a") if "…" in it or it == "New subject"])
    page.picture("empty")
    page.show("new=")
    page.until("no way to a new subject", lambda: page.text("#nothing") != "" and page.text("#fresh") == "")
    page.stand.settings({"name": EVIL, "colour": "red\" onload=\"x"})
    page.load()
    page.until_text("h1", EVIL)
    same("no colour of another name", None, page.run("return document.body.dataset.colour ?? null"))
    page.stand.settings({"name": "Test registry", "colour": "violet", "write": False})
    page.load()
    page.until_text("h1", "Test registry")
    same("the title", "Test registry", page.run("return document.title"))


def try_start(page):
    """While the first answer is waited for there is a text and no skeleton."""
    page.stand.signal(signal.SIGSTOP)
    page.load()
    page.until_text("#waiting", "Asking the registry. If the browser asks for a password")
    same("nothing else is shown", "", page.text("#sides"))
    page.picture("waiting")
    page.stand.signal(signal.SIGCONT)
    page.until("the list", lambda: " of " in page.text("#shown"))
    same("nothing is waited for", "", page.text("#waiting"))


def try_list(page, subjects):
    every = f"1 to 100 of {subjects + 11:,}"
    page.until_text("#shown", every)
    same("what is drawn of them", 100, page.count("#subjects a"))
    same("the defaults", "All subjects: compatibility level BACKWARD · mode READWRITE", page.text("#defaults"))
    try_speed(page, subjects)
    page.click("#next")
    page.until_text("#shown", "101 to 200 of ")
    page.click("#previous")
    page.browser.type(page.all("#search")[0], "0009 TOPIC")
    same("a search by two words", ["topic-00009", *[f"topic-{place:05}" for place in range(90, 100)]], page.texts("#subjects a"))
    page.browser.type(page.all("#search")[0], " x")
    same("a search for none", "No subjects", page.text("#shown"))
    has("what to do then", "No subject fits.", page.text("#empty"))
    page.picture("none")
    page.button("Show all")
    page.until_text("#shown", every)
    page.write("#search", "gon")
    same("a deleted subject", ["gone deleted"], page.texts("#subjects a.deleted"))
    page.click("#with-deleted")
    same("without it", [], page.texts("#subjects a"))
    page.button("Show all")
    page.show("subject=topic-00777")
    page.until("it is marked on its own page of the list", lambda: page.texts("#subjects a[aria-current]") == ["topic-00777"])
    inside = page.run("const it = document.querySelector('#subjects a[aria-current]').getBoundingClientRect(); return it.top > 0 && it.bottom <= innerHeight")
    same("it is in sight", True, inside)
    same("so is what finds another", [True, True], [page.in_sight("#identity-number"), page.in_sight("#search")])
    page.load("#subject=topic-00555")
    page.until("a link marks it too", lambda: page.texts("#subjects a[aria-current]") == ["topic-00555"])
    page.show("subject=topic-00777")
    page.until("the one before", lambda: page.texts("#subjects a[aria-current]") == ["topic-00777"])
    try_refresh(page, subjects)


def try_speed(page, subjects):
    time_of_one = page.run("""
        const search = document.getElementById("search"), times = [];
        for (const words of ["t", "to", "topic-0", "topic-0009", "", "e", "e x", "", "or"]) {
          const begun = performance.now();
          search.value = words;
          search.dispatchEvent(new Event("input"));
          document.body.getBoundingClientRect();
          times.push(performance.now() - begun);
        }
        search.value = "";
        search.dispatchEvent(new Event("input"));
        return times.sort((one, other) => one - other)[4]""")
    print(f"a letter of a search among {subjects} subjects took {time_of_one:.0f} ms", flush=True)
    same("a letter takes no longer than 200 ms", True, time_of_one <= 200)


def try_refresh(page, subjects):
    """What somebody else registers comes by the button, and when somebody comes back to the page."""
    first = page.text("#shown").split(" of ")[0]
    page.stand.register("topic-by-another", "int")
    page.stand.await_follower("/subjects/topic-by-another/versions", [1])
    page.button("Refresh")
    page.until_text("#shown", f"{first} of {subjects + 12:,}")
    page.until_text("#done", "The list is up to date.")
    same("the marked one", ["topic-00777"], page.texts("#subjects a[aria-current]"))
    page.stand.ask("DELETE", "/subjects/topic-by-another")
    page.stand.ask("DELETE", "/subjects/topic-by-another?permanent=true")
    time.sleep(1)
    page.run("document.dispatchEvent(new Event('visibilitychange'))")
    page.until_text("#shown", f"{first} of {subjects + 11:,}")


def try_identity(page):
    page.write("#identity-number", "4")
    page.button("Find")
    page.until_text("#identity-title", "Schema id 4")
    page.until("its versions", lambda: page.texts("#identity-versions a") == ["orders, version 3"])
    same("the address", "#id=4", page.run("return location.hash"))
    same("the title", "id 4 · Test registry", page.run("return document.title"))
    has("its tree", "number: long", page.text("#identity-schema .tree"))
    page.picture("identity")
    page.click("#identity-versions a")
    page.until("the way to the version", lambda: page.is_at(3))
    same("the way to the id", ["4"], page.texts("#version-title a"))
    page.click("#version-title a")
    page.until_text("#identity-title", "Schema id 4")
    page.show("id=2")
    page.until("a deleted version", lambda: page.texts("#identity-versions a") == ["orders, version 1 deleted"])
    for number in ["77777", "x", "2147483648"]:
        page.show(f"id={number}")
        page.until_text("#identity-missing", f"No schema has the id {number}. The registry says: 40403 Schema not found")
    same("nothing of another id is shown", "", page.text("#identity-body"))
    same("the link of an id", "#id=2147483648", page.run("return location.hash"))
    page.show("id=1")
    page.until("an id of many subjects", lambda: page.count("#identity-versions a") == 100)
    page.click("#identity-more button")
    same("more of them", [200, "topic-00100, version 1"], [page.count("#identity-versions a"), page.focused()])


def try_subject(page):
    page.open("orders", 3)
    same("its level and mode", "Compatibility level BACKWARD_TRANSITIVE, of its own · mode READWRITE, the same as for all subjects", page.text("#rules"))
    same("what the level means", "A new schema has to read what every version wrote.", page.text("#level-means"))
    same("its versions, the newest first", ["3", "2", "1 deleted"], page.texts("#versions a"))
    same("their title", "3 versions", page.text("#versions-title"))
    same("the one that is shown", ["3"], page.texts("#versions a[aria-current]"))
    tree = page.text("#version .tree")
    for words in ["record shop.Order", "An order, as it was placed.", "number: long", "aliases id", "email: null | string", "price: bytes (decimal)", "precision 9", "RETURNED", "default 9223372036854775807", "field's default \"PAID\"",
                  "enum's default \"PLACED\""]:
        has("the tree", words, tree)
    bold = page.texts("#version .tree b")
    same("fields are bold, and an array's items aren't", [True, False], ["amount" in bold, "items" in bold])
    page.click("#versions a", 2)
    page.until("version 1", lambda: page.is_at(1))
    same("its title", "Version 1, schema id 2, deleted", page.text("#version-title"))
    same("the keys stay on the versions", "1 deleted", page.focused())
    same("the address", "#subject=orders&version=1", page.run("return location.hash"))
    page.browser.back()
    page.until("the version before", lambda: page.is_at(3))
    page.open("list", 1)
    for depth in range(3):
        same("a record in itself", depth + 1, page.text("#version .tree").count("value: int"))
        for _ in range(2):
            page.run("[...document.querySelectorAll('#version .tree [aria-expanded=false] > .row')].at(-1).click()")
    page.open("a/b%2F?#c", 1)
    same("no other version", "There is no other version.", page.text("#changes"))
    same("one version", "1 version", page.text("#versions-title"))


def try_fields(page):
    page.open("orders", 3)
    page.browser.type(page.all("#version-schema input[type=search]")[0], "AM")
    same("the fields", "2 fields: customer.name, lines[].amount", page.text("#version-schema > p"))
    same("their marks", ["name: string", "amount: long"], page.texts("#version .tree mark.found"))
    page.press(ENTER)
    has("the first has the keys", "name: string", page.focused())
    page.picture("field")
    page.show("subject=orders&version=3&since=2&as=trees")
    page.until("marks in both", lambda: page.texts("#changes section:first-child mark.found") == ["name: string", "amount: long"])
    page.show("subject=wide")
    page.until_text("#subject-title", "wide")
    page.until("the word stays", lambda: page.text("#version-schema > p") == "No field has this in its name.")
    page.write("#version-schema input[type=search]", "f650")
    same("one that is far down", ["f650: int"], page.texts("#version .tree mark.found"))
    page.write("#version-schema input[type=search]", "f1")
    has("many", "111 fields: f1, f10, f11, f12, f13 and others", page.text("#version-schema > p"))
    page.write("#version-schema input[type=search]", "")
    same("no word, no mark", [0, ""], [page.count("mark.found"), page.text("#version-schema > p")])
    page.open("wide", 1)
    same("what is drawn of many fields", 501, page.count("#version .tree li li"))
    page.click("#version .tree .more .row")
    same("what is drawn then", 700, page.count("#version .tree li li"))
    has("where the keys are", "f500: int", page.focused())


def try_taking(page):
    page.open("orders", 3)
    page.button("Schema JSON", "#version")
    indented = page.text("#version pre")
    has("indented", '\n  "doc": "An order, as it was placed.",', indented)
    page.button("Copy", "#version .json")
    page.until("it is copied", lambda: "Copied." in page.text("#version .json .told"))
    same("what is copied", indented, page.copied())
    page.button("Download", "#version .json")
    same("the file", indented, page.downloaded("orders-version-3.avsc"))
    page.click("#version .json input[value=kept]")
    _, kept = page.stand.ask("GET", "/subjects/orders/versions/3")
    page.until("as it is kept", lambda: page.text("#version pre") == kept["schema"])
    page.picture("kept")
    page.button("Copy", "#version .json")
    page.until("it is copied too", lambda: page.copied() == kept["schema"])
    page.button("Download", "#version .json")
    same("the other file", kept["schema"], page.downloaded("orders-version-3.avsc"))
    page.button("Schema JSON", "#version")
    same("a link to a version", "#subject=orders&version=3", page.link("#version-tools"))
    same("a link to a comparison", "#subject=orders&version=3&since=2&as=list", page.link("#forms"))
    page.check(NARROWER, "3")
    link = page.link("#check")
    has("a link to a check", "#subject=orders&check=", link)
    page.load(link)
    page.until("the link checks", lambda: "TYPE_MISMATCH" in page.text("#check .verdict") and page.count("#check .clash section") == 2)
    same("against the same version", "3", page.value("#check select"))
    page.write("#check textarea", '"typed since"')
    page.button("Refresh")
    page.until_text("#done", "The list is up to date.")
    same("what was typed since", '"typed since"', page.value("#check textarea"))
    page.write("#check textarea", json.dumps("x" * 70_000))
    page.button("Copy link", "#check")
    page.until("a link that is too long", lambda: "Too long for a link." in page.text("#check .told"))
    page.open("a/b%2F?#c", 1)
    page.button("Schema JSON", "#version")
    page.button("Download", "#version .json")
    same("a file of a strange name", '"int"', page.downloaded("a-b-2F-c-version-1.avsc"))
    page.button("Schema JSON", "#version")


CHANGES = ["number name: id became number", "number aliases: none became id", 'state default: none became "PAID"',
           'state enum\'s default: none became "PLACED"', "state symbol added: RETURNED", "weight field added: long, default 9223372036854775807", "placed field removed: long (timestamp-millis)"]


def try_comparison(page):
    page.open("orders", 3)
    same("what changed", CHANGES, page.texts("#changes li"))
    page.choose("#since", "1")
    page.until("any other version", lambda: "long became int" not in page.text("#changes") and "lines[].amount type: int became long" in page.texts("#changes li"))
    same("its address", "#subject=orders&version=3&since=1", page.run("return location.hash"))
    page.choose("#since", "2")
    page.until("the other one again", lambda: page.texts("#changes li") == CHANGES)
    page.click("#forms input[value=trees]")
    page.until("two trees", lambda: page.count("#changes .tree") == 2)
    same("what was", ["id: long", "placed: long (timestamp-millis)", "state: enum shop.State"], sorted(page.texts("#changes section:first-child mark")))
    has("what is new", "weight: long", page.text("#changes section:last-child mark.added"))
    has("a symbol", "RETURNED", page.text("#changes section:last-child mark.added"))
    has("what it was before", "name: number, was id", page.text("#changes section:last-child .note"))
    page.picture("trees")
    page.click("#forms input[value=texts]")
    page.until("two texts", lambda: page.count("#changes table.lines") == 1)
    has("a removed line", '−', page.text("#changes td.removed"))
    has("an added line", '"RETURNED"', page.text("#changes td.added"))
    has("equal lines are folded", "equal lines: show", page.text("#changes .gap"))
    page.picture("texts")
    before = page.count("#changes tr.same")
    page.click("#changes .gap button")
    same("and unfold", True, page.count("#changes tr.same") > before)
    page.load("#subject=orders&version=2&since=3&as=texts")
    page.until("a link to it, the other way round", lambda: page.count("#changes table.lines") == 1 and "RETURNED" in page.text("#changes td.removed"))


def try_versions(page):
    page.open("many", MANY)
    shown = page.texts("#versions a")
    same("few links for many versions", ["300", "299", "298", "3", "2", "1"], shown)
    page.run("document.getElementById('subjects').scrollTop = 600")
    page.show("subject=many&version=150")
    page.until("one in the middle", lambda: page.is_at(150))
    same("the list stays where it was", 600, page.run("return document.getElementById('subjects').scrollTop"))
    same("it is in sight", ["300", "299", "298", "152", "151", "150", "149", "148", "3", "2", "1"], page.texts("#versions a"))
    same("it is marked", ["150"], page.texts("#versions a[aria-current]"))
    page.picture("many")
    page.choose("#all-versions", "77")
    page.until("any of them", lambda: page.is_at(77))
    same("what changed is since the one before", "76", page.value("#since"))


def try_missing(page):
    page.open("orders", 3)
    for version in ["9", "x", "0", "-1"]:
        page.show(f"subject=orders&version={version}")
        page.until_text("#version-missing", f"This subject has no version {version}. Show version 3")
        same("no other version's content", ["", ""], [page.text("#version"), page.text("#difference")])
    page.picture("missing")
    page.button("Show version 3")
    page.until("the way from there", lambda: page.is_at(3))
    same("what isn't missing", "", page.text("#version-missing"))
    page.show("subject=nowhere")
    page.until_text("#subject-missing", "The registry has no subject of this name. It says: 40401 Subject not found")
    same("nothing else of it", "", page.text("#subject-body"))
    page.open("gone", 1)
    has("a deleted subject's version", ", deleted", page.text("#version-title"))


def try_slow(page):
    page.open("orders", 3)
    page.stand.signal(signal.SIGSTOP)
    page.show("subject=fixed")
    page.until_text("#waiting", "Waiting for the registry.")
    same("the title at once", "fixed", page.text("#subject-title"))
    same("and its mark", ["fixed"], page.texts("#subjects a[aria-current]"))
    same("nothing of the subject before", "", page.text("#subject-body"))
    page.picture("slow")
    page.until_text("#waiting", "The registry hasn't answered for ")
    page.stand.signal(signal.SIGCONT)
    page.until("the answer", lambda: page.is_at(1))
    page.until("nothing is waited for", lambda: page.text("#waiting") == "")


def try_away(page):
    """The registry is down, and back again: the page sees it by itself."""
    page.open("orders", 3)
    page.write("#check textarea", '"typed before"')
    page.stand.end("writer", "tail", "follower")
    page.show("subject=union")
    page.until_text("#trouble", "The registry can't be reached: the web server answers 502.")
    has("what comes", "It is tried again by itself.", page.text("#trouble"))
    same("no button asks", [], page.run("return [...document.querySelectorAll('[data-asks]')].filter((it) => !it.disabled).map((it) => it.innerText)"))
    page.picture("away")
    page.stand.start_writer()
    page.stand.start_follower()
    page.until_text("#done", "The registry is back.")
    page.until("what was asked for", lambda: page.text("#subject-title") == "union" and page.is_at(1))
    same("no trouble", "", page.text("#trouble"))
    same("the buttons", [], page.run("return [...document.querySelectorAll('[data-asks]')].filter((it) => it.disabled).map((it) => it.innerText)"))
    page.show("")
    page.open("orders", 3)
    same("what was typed", '"typed before"', page.value("#check textarea"))
    page.stand.end("writer", "tail", "follower")
    page.load()
    page.until_text("#trouble", "The registry can't be reached: the web server answers 502.")
    same("nothing else, at the start", ["", ""], [page.text("#sides"), page.text("#waiting")])
    page.picture("away-at-start")
    page.stand.start_writer()
    page.stand.start_follower()
    page.until("the list", lambda: " of " in page.text("#shown"))


def try_unanswered(page):
    """A check without an answer isn't made by itself once the registry is back, but what was said of it is over."""
    page.open("orders", 3)
    page.stand.end("writer", "tail", "follower")
    has("no answer", "The registry can't be reached: the web server answers 502.", page.check(FOLLOWS))
    page.stand.start_writer()
    page.stand.start_follower()
    page.until_text("#done", "The registry is back.")
    same("what is said then", "The registry didn't answer, and is back now: check again.", page.text("#check .verdict"))
    page.until("that it is back needn't stay", lambda: page.text("#done") == "", 20)
    has("the check again", "Compatible.", page.check(FOLLOWS))


def try_refused(page):
    page.open("orders", 3)
    page.stand.password("another")
    # Without what the browser remembers, as after `Cancel` where it asks.
    page.run("const ask = window.fetch; window.fetch = (place, options) => ask(place, {...options, credentials: 'omit'})")
    page.show("subject=union")
    page.until_text("#trouble", "The password was refused. The answer is 401")
    has("what to do", "Give the password again", page.text("#trouble"))
    page.picture("refused")
    page.stand.password("secret")
    page.load()
    page.until("the list", lambda: " of " in page.text("#shown"))


def try_error(page):
    """An answer that the page doesn't expect is shown as the registry says it, and nothing is waited for."""
    page.open("orders", 3)
    page.run("""const ask = window.fetch, answer = '{"error_code":50001,"message":"Store error: memory"}';
        window.fetch = (place, options) => (`${place}`.includes("union") ? new Response(answer, {status: 500}) : ask(place, options))""")
    page.show("subject=union")
    page.until_text("#trouble", "The registry refuses: 50001 Store error: memory")
    same("nothing of the subject before", "union", page.text("#subject"))
    page.load()
    page.until("the list", lambda: " of " in page.text("#shown"))


def try_checks(page):
    for subject, schema, against, message, reader, writer, why in CLASHES:
        page.open(subject, 3 if subject == "orders" else 1)
        same(f"the verdict on {message}", f"Not compatible. {message}", page.check(schema, against))
        same(f"the marks of {message}", [reader, writer], page.texts("#check mark.broken"))
        same(f"the reasons of {message}", [why, why], page.texts("#check .why"))
        roles = ["Reader: the new schema", f"Writer: {message.split(',')[0]}"] if "BACKWARD" in message else ["Reader: version 1", "Writer: the new schema"]
        same(f"the sides of {message}", roles, page.texts("#check h4"))
    page.open("orders", 3)
    page.button("Start from version 3")
    has("the text to begin with", '"default": 9223372036854775807', page.value("#check textarea"))
    try_caret(page, "#check-title ~ div .buttons button")
    page.button("Start from this version")
    try_caret(page, "#version-tools button")
    page.check(NARROWER)
    page.button("Start from version 3")
    has("a verdict on another text", "This was said of the text before it was changed.", page.text("#check .verdict"))
    colours = page.run("return ['.verdict', '.clash mark.broken', '.clash .why'].map((it) => getComputedStyle(document.querySelector(`#check ${it}`)).color)")
    same("what was drawn for it is as pale", [colours[0]] * 3, colours)
    same("what may follow", "Compatible. It may be registered: the level is BACKWARD_TRANSITIVE.", page.check(FOLLOWS))
    same("what agrees with one", "Compatible. It agrees with version 2.", page.check(ORDERS[1], "2"))
    same("no clash is left", 0, page.count("#check .clash section"))
    for schema, reason in FAULTS:
        verdict = page.check(schema)
        has("what isn't a schema", "The registry refuses: 42201 Invalid Avro schema", verdict)
        has(f"the reason of {schema}", reason, verdict)
    page.picture("invalid")
    page.browser.size(1300, 700)
    page.run("scrollTo(0, 0)")
    page.check(FAULTS[0][0])
    same("the reason is in sight", True, page.in_sight("#check .verdict"))
    page.browser.size(1300, 1500)


def try_caret(page, where):
    """The text that one starts from shows its beginning, with the caret there, in sight."""
    got = page.run("""const it = document.querySelector("#check textarea"), box = it.getBoundingClientRect();
        return [it === document.activeElement, it.selectionStart, it.selectionEnd, it.scrollTop, box.top > 0 && box.bottom <= innerHeight]""")
    same(f"where the text begins by {where}", [True, 0, 0, 0, True], got)


def try_strangers(page):
    page.open(EVIL, 2)
    page.open("orders", 3)
    page.open(EVIL, 2)
    has("the documentation", "<script>document.title='run'</script>", page.text("#version .tree"))
    has("a member's name and value", EVIL, page.text("#version .tree"))
    has("what changed", "</bdi><img src=x onerror=", page.text("#changes"))
    for form in ["trees", "texts"]:
        page.click(f"#forms input[value={form}]")
        page.until(f"{form} of it", lambda: "</td>" in page.text("#changes"))
    page.button("Schema JSON", "#version")
    has("its JSON", "<script>", page.text("#version pre"))
    page.button("Schema JSON", "#version")
    same("a clash with a script", "Not compatible. version 2, BACKWARD, at /field:a: TYPE_MISMATCH", page.check({"type": "record", "name": "X", "fields": [{"name": "a", "type": "string", "doc": EVIL}]}))
    has("its documentation", EVIL, page.text("#check .clash"))
    page.show(f"subject=orders&version={EVIL.replace('=', '%3D')}")
    page.until("a version with a script", lambda: EVIL in page.text("#version-missing"))
    page.show(f"id={EVIL.replace('=', '%3D')}")
    page.until("an id with a script", lambda: EVIL in page.text("#identity-missing"))
    page.write("#search", EVIL)
    same("a search for it", [EVIL], page.texts("#subjects a"))
    page.write("#search", "")
    page.open(EVIL, 2)
    same("the title", f"{EVIL} · Test registry", page.run("return document.title"))
    same("pictures and scripts in it", 0, page.count("img, body script, iframe, object"))
    page.run("const it = document.createElement('script'); it.textContent = 'document.body.dataset.ran = 1'; document.body.append(it); it.remove()")
    same("a script that isn't a file of the page", None, page.run("return document.body.dataset.ran ?? null"))


def try_list_keys(page):
    """The list is one stop of the Tab key, and the arrow keys go through it."""
    page.show("id=77777")
    page.until_text("#identity-missing", "No schema has the id 77777.")
    for _ in range(9):
        page.browser.press_shifted(TAB)
        if page.focused() == "identity-number":
            break
    same("the way back to another id", "identity-number", page.focused())
    page.show("id=1")
    page.until("versions", lambda: page.count("#identity-versions a") > 0)
    names = page.texts("#subjects a")
    page.run("document.getElementById('search').focus()")
    page.press(DOWN, DOWN)
    same("down into the list", names[1], page.focused())
    page.press(END)
    same("its end", names[-1], page.focused())
    page.press(DOWN, HOME)
    same("its beginning", names[0], page.focused())
    page.press(DOWN, DOWN, TAB)
    same("out of it", False, page.run("return document.getElementById('subjects').contains(document.activeElement)"))
    page.browser.press_shifted(TAB)
    same("back to where the keys were", names[2], page.focused())
    same("its stops", 1, page.count("#subjects a[tabindex='0']"))
    page.press(UP, UP, UP)
    same("up to the search", "search", page.focused())
    page.show("subject=topic-00003")
    page.until("the chosen one is the stop", lambda: page.texts("#subjects a[tabindex='0']") == ["topic-00003"])


def try_tree_keys(page):
    """A tree is one stop, and folded fields are none."""
    page.open("orders", 3)
    page.run("document.querySelector('#version-schema input').focus()")
    page.press(TAB)
    same("the tree's stop", "record shop.Order", page.focused().split("\n")[0])
    page.press(DOWN, DOWN)
    has("down", "customer: record", page.focused())
    page.press(LEFT)
    page.until("it is folded", lambda: "email" not in page.text("#version .tree"))
    page.press(DOWN)
    has("over what is folded", "lines: array", page.focused())
    page.press(UP, RIGHT, RIGHT)
    has("unfolded, and into it", "name: string", page.focused())
    page.press(LEFT, ENTER, ENTER, END)
    has("the end", "weight: long", page.focused())
    page.press(HOME)
    same("the beginning", "record shop.Order", page.focused().split("\n")[0])
    page.press(DOWN, TAB)
    same("the next stop", "Schema JSON", page.focused())
    same("the tree's stops", 1, page.count("#version .tree [tabindex='0']"))
