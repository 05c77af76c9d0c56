#!/usr/bin/env python3
"""Checks that what the documents cite is there. Run it by hand, from anywhere: python3 docs/check-names.py
With --link it first makes a link of each path that has to be one.

A cited name stands in backticks in one of CITING, and looks like a name, `Type::member`, a crate or the path of a file. The code's
names are the items, fields, variants, clause labels and plain strings of crates/*/src, the definitions, constructors and fields of
crates/*/specs and proofs, and the names of wrong bodies; of test crates but test_tools only the files count. A name has to stand
- in the file beside it (`name` (`specs/File.antt`) and `src/file.rt`, `name`), or in the crate behind it (`name` of `crate`);
- before the first `: ` of an item of DEFINITIONS in the file above the item, and in the last column of LAYERS in the row's crate;
- behind the dash of an item of CLAIMS in a crate of the heading or the item; a clause at a call in the item, a definition in any specs/;
- else somewhere, and a path in the last crate that was named before it.
In all pages the path of a file that means one file alone has to be a link to it. A link whose text is a path leads to a file of that path.
Each statement in a text block of HEADLINE has to stand in some specs/, but for `pub`, comments and line breaks. Each link between
documents has to lead to a file, and to a heading there. `VERSION` of log_arguments is what the file VERSION at the top has.
No public type, trait or free function has the name of another crate's, but for those of SHARED.
By the lines of crates.txt at most WAYS ways lead down from each crate: `rt` sums the files of a crate once for each such way, so a crate
lists no crate that another one of its line passes on.
"""
import functools
import os
import re
import sys
from collections import defaultdict
from pathlib import Path

TOP = Path(__file__).resolve().parent.parent
CITING = [f"{name}.md" for name in "DEFINITIONS LAYERS CLAIMS HEADLINE READING KEEPING FOLLOWING SERVING COMMANDS DECISIONS CONTRIBUTING".split()]
# What looks like a name of the code and isn't one. What has another form, as a command or `x.now`, or one or two letters is passed over.
OTHER = set("""
    Ok Err None Some Option Result Box Write BufRead Serialize RandomState impl match let else use while unsafe ghost requires ensures
    IfOk IfErr IfSome OnOk OnErr Brand Absorb matchit http httparse serde_json clap null stdin stdout library result READONLY_OVERRIDE EIO Old
    Key::X Value::X crates/NAME crates/NAME/wrong/ must-fail/ wrong/ specs/ proofs/ data/ out/ out/NAME.log out/NAME.not-proved exec client_max_body_size
""".split())
# A name that public items of several crates share, and why it stays. None does today.
SHARED = {}
# The most ways that may lead down from a crate, and from all crates together.
WAYS = {"registrylog": 23_500, "all crates": 129_000}
FENCE = re.compile(r"(?s)```.*?```")
NAME = re.compile(r"[A-Za-z_]\w*(?:::\w+)?(?:\(\))?")
LINKED = re.compile(r"\[(`[^`]+`)\]\(([^)\s]*)\)")
PATH = re.compile(r"([\w+-]+/)*[\w+-]+\.(?:rt|antt|edit|md|py|txt)|([\w+-]+/)+[\w.+-]*")

CRATES = {p.name for p in (TOP / "crates").iterdir() if p.is_dir()}
FILES = [p.relative_to(TOP / "crates").as_posix() for part in ("src", "specs", "proofs", "must-fail", "wrong")
         for p in sorted((TOP / "crates").glob(f"*/{part}/**/*")) if p.is_file()]
places = defaultdict(set)  # each name, and the files in which it stands, as crate/specs/File.antt
clauses = defaultdict(set)  # each label of a clause, and the functions that have such a clause


def read_rust(file, text):
    text = re.sub(r"//[^\n]*", "", text)
    for name in re.findall(r'"(\w+)"', text) + re.findall(r"\w+", " ".join(re.findall(r"\bpub use [^;]*", text))):
        places[name].add(file)
    for block in re.split(r"(?m)^(?=[a-z])", text):  # an item of the file each, or a part of one
        head = re.split(r"[{;]", block)[0]
        while head != (shorter := re.sub(r"<[^<>]*>", " ", head)):
            head = shorter
        owner = re.search(r"\b(?:struct|enum|trait) (\w+)", head) or re.search(r"^impl\b.*?(\w+)\s*$", head, re.S)
        function = None
        for item, member, clause in re.findall(
                r"\b((?:fn|struct|enum|trait|const|static|type|mod|ghost) \w+)|^    (?:pub )?(\w+)(?=[:,({]| \{| =|$)"
                r"|\b(?:ensures|requires)\s+(\w+)", block, re.M):
            name = item.split(" ")[-1] or (owner and member)
            function = name if item.startswith("fn ") else function
            clauses[clause].add(function)
            for full in [name, f"{owner[1]}::{name}"] if owner else [name]:
                places[full].add(file)


def read_definitions(file, text):
    found = re.findall(r"(?m)^ *(?:(?:abbrev|unfoldable|pub|mutual) +)*"
                       r"(?:(?:data|record|mod|module) +([^\s({]+)|([^\s:({=]+) (?:[({][^=\n]*)?:(?:\s|$))", text)
    for name in [a or b for a, b in found] + re.findall(r"\w+", " ".join(re.findall(r"pub use [\w.]+\.\{(.*?)\}", text))):
        places[name].add(file)


def crates_in(text):
    return CRATES.intersection(re.findall(r"\w+", text))


def shared_names():
    """Each name of a public type, trait or free function that several crates have, and those crates."""
    owners = defaultdict(set)
    for file in FILES:
        if "/src/" in file and file.endswith(".rt"):
            for name in re.findall(r"(?m)^pub (?:unsafe )?(?:fn|struct|enum|union|trait|type) (\w+)", (TOP / "crates" / file).read_text()):
                owners[name].add(file.split("/")[0])
    return {name: sorted(crates) for name, crates in sorted(owners.items()) if len(crates) > 1}


def squeezed(text):
    return " ".join(re.sub(r"\bpub ", "", text).split())


def files_of(path, crates=()):
    """The files that a cited path may mean: in these crates, where there are some and it names none itself."""
    path = path.removeprefix("crates/").rstrip("/")
    found = {f for f in FILES if f"/{f}".endswith(f"/{path}") or f"/{path}/" in f"/{f}"}
    return {f for f in found if f.split("/")[0] in crates} if crates and path.split("/")[0] not in CRATES else found


def cited(document, text):
    """Each name in backticks: where it is, the crates that its row or paragraph names, its row, and the files that may have it."""
    heading = file = ""
    for block in re.finditer(r"(?m)^#.*$|^\|.*$|^[^#|\n].*(?:\n(?![#|]|- |\d\. ).+)*", text):
        row = block[0]
        heading = row if row.startswith("#") else heading
        file = (re.match(r"\[\w+\.antt\]\(\.\./crates/([\w/]+\.antt)\)$", row) or [0, file])[1]
        crates, cells = crates_in(row + heading), row.split("|")
        for span in re.finditer(r"`([^`]+)`", row):
            before, after, column = row[:span.start()], row[span.end():], row.count("|", 0, span.start()) - 1
            beside = re.match(r" \(`([\w/]+\.antt)`", after) or re.search(r"`([\w/]+\.rt)`, $", before)
            crate = re.match(r" of `(\w+)`", after)
            nearest = [c for c in re.findall(r"\w+", before) if c in CRATES][-1:] if "/" in span[1] else crates
            if beside and not PATH.fullmatch(span[1]):
                files = files_of(beside[1], crates)
            elif crate and crate[1] in CRATES:
                files = files_of(crate[1])
            elif document == "DEFINITIONS.md" and row.startswith("- `") and span.start() < row.find(": "):
                files = {file}
            elif document == "LAYERS.md" and column == 1 and cells[1].strip(" `") in CRATES:
                files = files_of(cells[1].strip(" `"))
            elif document == "CLAIMS.md" and " — " in before:
                own = {f for crate in crates_in(row + heading) for f in files_of(crate)}
                files = {f for f in FILES if f in own and ("/src/" in f or span[1] not in clauses) or span[1][0].isupper() and "/specs/" in f}
            else:
                files = None
            yield block.start() + span.start(), span[1], nearest or crates, row, files


def is_there(name, crates, row, files):
    if PATH.fullmatch(name):
        return bool(files_of(name, crates)) or (TOP / name).exists()
    return (name in places or name in clauses) if files is None else bool(places[name] & files) or any(
        re.search(rf"`(\w+::)?{f}`", row) for f in clauses[name])


def unlinked(document, text):
    """Each path of a file in backticks that isn't a link and means one file alone: where it is, and that file."""
    plain = LINKED.sub(lambda link: f"  {link[1][1:-1]}".ljust(len(link[0])), hidden(FENCE, text))
    for at, path, crates, *_ in cited(document, plain):
        if not PATH.fullmatch(path):
            continue
        if (TOP / path).is_file():
            yield at, path, TOP / path
        elif re.search(r"\.(rt|antt|edit)$", path) and len(found := files_of(path, crates)) == 1:
            yield at, path, TOP / "crates" / found.pop()


def linked(path):
    """The text of a document with a link for each such path."""
    text = path.read_text()
    for at, name, file in sorted(unlinked(path.name, text), reverse=True):
        target = Path(os.path.relpath(file, path.parent)).as_posix()
        text = f"{text[:at]}[`{name}`]({target}){text[at + len(name) + 2:]}"
    return text


def hidden(pattern, text):
    """The text with blanks in the place of what the pattern finds."""
    return pattern.sub(lambda found: re.sub(r"[^\n]", " ", found[0]), text)


def anchors(path):
    headings = re.findall(r"(?m)^#+ (.*)", FENCE.sub("", path.read_text()))
    return [re.sub(r"[^\w\- ]", "", h.strip().lower()).replace(" ", "-") for h in headings]


def too_many_ways():
    """Each part of crates.txt with more ways than WAYS has for it."""
    lines = (line.partition("#")[0].partition(":") for line in (TOP / "crates.txt").read_text().splitlines())
    listed = {head.split()[0]: rest.split() for head, colon, rest in lines if colon}

    @functools.cache
    def ways(crate):
        return 1 + sum(ways(it) for it in listed[crate] if it in listed)

    found = {name: ways(name) if name in listed else sum(map(ways, listed)) for name in WAYS}
    return [f"crates.txt: {count} ways lead down from {name}, and {WAYS[name]} are the most" for name, count in found.items()
            if count > WAYS[name]]


def main():
    specs, count, faults = "", 0, too_many_ways()
    for file in FILES:
        text = (TOP / "crates" / file).read_text()
        if file.endswith(".antt"):
            text = re.sub(r"--[^\n]*", "", text)
            read_definitions(file, text)
            specs += squeezed(text) + " " if "/specs/" in file else ""
        elif file.endswith(".edit"):
            places[Path(file).stem].add(file)
        elif file.startswith("test_tools/") or not file.startswith("test_"):
            read_rust(file, text)
    for path in [*TOP.glob("*.md"), *sorted((TOP / "docs").glob("*.md")), *sorted((TOP / "benches").glob("*.md"))]:
        is_page = path.parent.name != "benches"
        if is_page and "--link" in sys.argv:
            path.write_text(linked(path))
        text = path.read_text()
        looked_up = []  # in which line it is, what it is, and whether it is there
        plain = LINKED.sub(r"\1", hidden(FENCE, text))
        for at, name, *where in cited(path.name, plain) if path.name in CITING else ():
            at = plain.count("\n", 0, at)
            if name not in OTHER | CRATES and (PATH.fullmatch(name) or NAME.fullmatch(name) and len(name) > 2):
                looked_up.append((at, name, is_there(name.removesuffix("()"), *where)))
        for block in re.finditer(r"(?s)```text\n(.*?)```", text) if path.name == "HEADLINE.md" else ():
            looked_up += [(text.count("\n", 0, block.start(1) + m.start()), m[0].split("\n")[0], squeezed(m[0]) in specs)
                          for m in re.finditer(r"(?m)^\S.*(?:\n +.*)*", block[1])]
        for link in re.finditer(r"\]\((?!\w+:)([^)#\s]*)(?:#([^)\s]*))?\)", text):
            target = path.parent / link[1] if link[1] else path
            looked_up.append((text.count("\n", 0, link.start()), link[0][2:-1],
                              target.exists() and (link[2] is None or link[2] in anchors(target))))
        for link in LINKED.finditer(text) if is_page else ():
            if PATH.fullmatch(link[1].strip("`")):
                target = (path.parent / link[2].split("#")[0]).resolve().as_posix()
                looked_up.append((text.count("\n", 0, link.start()), link[0], target.endswith("/" + link[1].strip("`/"))))
        looked_up += [(text.count("\n", 0, at), f"no link: {name}", False) for at, name, _ in unlinked(path.name, text) if is_page]
        count += len(looked_up)
        faults += [f"{path.relative_to(TOP)}:{at + 1}: {name}" for at, name, there in looked_up if not there]
    shared = shared_names()
    faults += [f"{name}: public in {', '.join(crates)}" for name, crates in shared.items() if name not in SHARED]
    faults += [f"{name}: shared by no two crates" for name in SHARED if name not in shared]
    version = (TOP / "VERSION").read_text().strip()
    if f'pub const VERSION: &str = "{version}";' not in (TOP / "crates/log_arguments/src/command.rt").read_text():
        faults.append(f"VERSION: {version}")
    print("\n".join(faults) or f"{count} names, statements and links were looked up, and each is there.")
    return 1 if faults else 0


raise SystemExit(main())
