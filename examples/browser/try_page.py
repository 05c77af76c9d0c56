"""The page in a browser, for try.py: what is read from it, what is done in it, and what is compared."""
import json, os, time
from urllib.parse import quote

from try_stand import LOGIN

wrong = []
ENTER, TAB, DOWN, UP, LEFT, RIGHT, HOME, END, SPACE, ESCAPE, BACK_TAB = "\ue007", "\ue004", "\ue015", "\ue013", "\ue012", "\ue014", "\ue011", "\ue010", " ", "\ue00c", "\ue008\ue004"


def same(what, wanted, got):
    if wanted != got:
        wrong.append(what)
        print(f"WRONG {what}: wanted {wanted!r}, got {got!r}", flush=True)


def has(what, wanted, got):
    if wanted not in got:
        wrong.append(what)
        print(f"WRONG {what}: wanted {wanted!r} in {got!r}", flush=True)


class Page:
    def __init__(self, browser, stand, downloads, pictures):
        self.browser, self.stand, self.downloads, self.pictures = browser, stand, downloads, pictures
        self.run = browser.run

    def load(self, address=""):
        """Loads the page anew. The browser remembers the password, which another address has."""
        self.browser.go(self.stand.front.replace("://", f"://{LOGIN}@") + "/browser/icon.svg")
        self.browser.go(self.stand.front + "/browser/" + address)

    def show(self, address):
        self.run("location.hash = arguments[0]", address)

    def picture(self, name):
        if self.pictures:
            self.browser.picture(os.path.join(self.pictures, f"{self.browser.name}-{name}.png"))

    # ---- what is there

    def all(self, selector):
        return self.run("return [...document.querySelectorAll(arguments[0])]", selector)

    def texts(self, selector):
        return self.run("return [...document.querySelectorAll(arguments[0])].filter((it) => it.checkVisibility()).map((it) => it.innerText.trim())", selector)

    def text(self, selector):
        return "|".join(self.texts(selector))

    def count(self, selector):
        return self.run("return document.querySelectorAll(arguments[0]).length", selector)

    def value(self, selector):
        return self.run("return document.querySelector(arguments[0]).value", selector)

    def focused(self):
        """What has the keys: its id, or else its text."""
        return self.run("const it = document.activeElement; return it.id || (it.firstElementChild?.className === 'row' ? it.firstElementChild : it).innerText.trim()")

    def until(self, what, holds, seconds=60):
        end = time.time() + seconds
        while time.time() < end:
            if holds():
                return
            time.sleep(0.05)
        wrong.append(what)
        print(f"WRONG {what}: not after {seconds} s", flush=True)
        self.picture(f"wrong-{len(wrong)}")

    def until_text(self, selector, wanted, seconds=60):
        """Waits until an element's text begins so."""
        self.until(f"{selector} begins with {wanted}, not {self.text(selector)[:80]}", lambda: self.text(selector).startswith(wanted), seconds)

    def in_sight(self, selector):
        """Whether the whole of it is in the window, and nothing over its ends."""
        return self.run("""const it = document.querySelector(arguments[0]), box = it.getBoundingClientRect();
            const over = (y) => it.contains(document.elementFromPoint(box.left + 3, y));
            return box.top >= 0 && box.bottom <= innerHeight && over(box.top + 3) && over(box.bottom - 3)""", selector)

    # ---- what is done

    def click(self, selector, place=0):
        self.browser.click(self.all(selector)[place])

    def button(self, words, inside="body"):
        """Clicks the visible button or link with these words."""
        found = self.run("""return [...document.querySelectorAll(`${arguments[1]} :is(button, a, summary)`)]
            .filter((it) => it.checkVisibility() && it.innerText.trim() === arguments[0])""", words, inside)
        if not found:
            return same(f"the button {words}", "there", "not there")
        self.browser.click(found[0])

    def write(self, selector, text):
        """Puts a text into a field, as pasting does."""
        self.run("const it = document.querySelector(arguments[0]); it.value = arguments[1]; it.dispatchEvent(new Event('input', {bubbles: true}))", selector, text)

    def choose(self, selector, value):
        self.run("const it = document.querySelector(arguments[0]); it.value = arguments[1]; it.dispatchEvent(new Event('change', {bubbles: true}))", selector, value)

    def press(self, *keys):
        for key in keys:
            self.browser.press(key)

    def paste(self, text):
        """Puts a text where the keys are, in place of what is marked."""
        self.run("document.execCommand('insertText', false, arguments[0])", text)

    def open(self, subject, version):
        """Opens a subject by its address, and waits for the version that is to be shown."""
        self.show(f"subject={quote(subject, safe='')}")
        self.until(f"{subject} is shown", lambda: self.text("#subject-title") == subject and self.is_at(version))

    def is_at(self, version):
        return self.text("#version-title").startswith(f"Version {version}, ") and self.text("#changes") not in ("", "Waiting for the other version.")

    def check(self, schema, against="", form="#check"):
        """Pastes a schema, checks it, and gives the verdict."""
        self.write(f"{form} textarea", schema if isinstance(schema, str) else json.dumps(schema))
        if form == "#check":
            self.choose("#check select", against)
        self.run("document.querySelector(`${arguments[0]} .verdict`).replaceChildren()", form)
        self.button("Check compatibility", form)
        self.until("a verdict", lambda: self.text(f"{form} .verdict") not in ("", "Checking.") and ("at /" not in self.text(f"{form} .verdict") or self.count(f"{form} .clash section") == 2))
        return self.text(f"{form} .verdict")

    def asked_question(self, title):
        self.until_text("#question-title", title)
        return self.text("#question-words")

    def yes(self, done):
        """Answers a question with yes, and waits for what is said then."""
        self.click("#question-yes")
        self.until_text("#done", done)
        same("no question is open", False, self.run("return document.getElementById('question').open"))

    def copied(self):
        return self.browser.run_later("const tell = arguments[arguments.length - 1]; navigator.clipboard.readText().then(tell, (error) => tell(`${error}`))")

    def downloaded(self, name):
        path = os.path.join(self.downloads, name)
        self.until(f"the file {name}", lambda: os.path.exists(path) and os.path.getsize(path) > 0)
        with open(path) as file:
            text = file.read()
        os.remove(path)
        return text

    def link(self, inside):
        """Presses `Copy link` and gives what is behind the # of it."""
        self.button("Copy link", inside)
        self.until("the link is copied", lambda: "Copied." in self.text(f"{inside} .told"))
        link = self.copied()
        same("the link's beginning", f"{self.stand.front}/browser/", link.split("#")[0])
        return "#" + link.split("#")[1]
