#!/usr/bin/env python3
"""Writes the manual pages from the documents in docs/, and those of the tools from their help: manuals.py FOLDER DATE VERSION

Each page is sections of the documents, as PAGES lists them; a section that isn't there any more is an error."""
import os
import re
import subprocess
import sys
from pathlib import Path
from typing import NamedTuple

TOP = Path(__file__).resolve().parent.parent
DOCS = TOP / "docs"


class Page(NamedTuple):
    name: str
    number: int  # the section of the manual that it is in
    about: str
    sections: list  # a document and a heading each; "" is the document's beginning
    others: list  # the pages that its end names
    files: dict = {}  # each file, and what it is


PAGES = [
    Page("registryd", 1, "a registry of Avro schemas in memory, and what a log of one says", [
        ("SERVING.md", ""),
        ("SERVING.md", "Limits"),
        ("SERVING.md", "Health, and memory"),
        ("FORMATS.md", "The input of `registryd fold`"),
        ("FORMATS.md", "Trails and clashes"),
        ("FORMATS.md", "Arguments and statuses"),
        ("FORMATS.md", "Sketches"),
    ], ["registrylog(1)", "registry-log(5)"]),
    Page("registrylog", 1, "keeps the log of a registry of Avro schemas in a file, and looks after it", [
        ("KEEPING.md", ""),
        ("KEEPING.md", "How far it is"),
        ("KEEPING.md", "Serving a file"),
        ("SERVING.md", "What to watch"),
        ("FOLLOWING.md", "Tailing a log"),
        ("FOLLOWING.md", "Following lines"),
        ("JOINING.md", "One log, several processes"),
        ("KEEPING.md", "Checking"),
        ("KEEPING.md", "Compacting"),
        ("KEEPING.md", "A base"),
    ], ["registryd(1)", "registry-log(5)", "systemd.service(5)"], {
        "/var/lib/registry/log": "the log of the unit `registrylog.service`",
        "/etc/default/registrylog": "the options of the units `registrylog.service`, `registrylog-follow.service` and `registrylog-join.service`",
    }),
    Page("registry-log", 5, "the lines of a registry's log", [
        ("KEEPING.md", "The file"),
        ("TOUR.md", "A registry that outlives its process"),
        ("FORMATS.md", "A line"),
        ("FORMATS.md", "The floor"),
        ("FORMATS.md", "Keys"),
        ("FORMATS.md", "Values"),
        ("FORMATS.md", "Written lines"),
        ("FORMATS.md", "Schemas"),
        ("KEEPING.md", "Compacting while batches are appended"),
    ], ["registrylog(1)", "registryd(1)"]),
]
TOOLS = {
    "check-schemas": "says of each schema in a folder whether it may be registered",
    "copy-registry": "copies a schema registry to another one",
    "dump-topic": "prints the topic of a schema registry as a log",
    "registry-diff": "says what two schema registries answer differently",
}
ITEM = re.compile(r"(- |\d+\. )")


# Markdown, as far as the documents use it

def section(name, heading):
    """The lines below a heading of a document, up to the next one of its level or above."""
    lines, found, level = [], False, 0
    text = (DOCS / name).read_text(encoding="utf-8")
    fenced = False
    for line in text.split("\n"):
        fenced ^= line.startswith("```")
        head = None if fenced else re.match(r"(#+) (.*)", line)
        if head and found and (len(head[1]) <= level or not heading):
            return lines
        if found:
            lines.append(line)
        elif head and (head[2] == heading or not heading):
            found, level = True, len(head[1])
    if not found:
        raise SystemExit(f"manuals.py: docs/{name} has no section '{heading}', which a manual page takes")
    return lines


def blocks(lines):
    """The blocks that lines are: ("code", lines), ("head", text), ("rows", rows), ("item", mark, blocks) or ("text", text)."""
    at = 0
    while at < len(lines):
        begin = at
        if not lines[at].strip():
            at += 1
        elif lines[at].startswith("```"):
            at = next(n for n in range(at + 1, len(lines)) if lines[n].startswith("```")) + 1
            yield "code", lines[begin + 1:at - 1]
        elif lines[at].startswith("    "):
            at = end_of(lines, at, lambda line: line.startswith("    ") or not line.strip())
            yield "code", strip_ends([line[4:] for line in lines[begin:at]])
        elif lines[at].startswith("#"):
            at += 1
            yield "head", lines[begin].lstrip("# ")
        elif lines[at].startswith("|"):
            at = end_of(lines, at, lambda line: line.startswith("|"))
            yield "rows", [cells(line) for line in lines[begin:at]]
        elif mark := ITEM.match(lines[at]):
            wide = len(mark[0])
            at = end_of(lines, at + 1, lambda line: line.startswith(" " * 2) or not line.strip())
            inner = [lines[begin][wide:], *(line[min(wide, indent(line)):] for line in lines[begin + 1:at])]
            yield "item", mark[0].strip(), list(blocks(inner))
        else:
            at = end_of(lines, at + 1, lambda line: line.strip() and not re.match(r"#|\||```", line) and not ITEM.match(line))
            yield "text", " ".join(line.strip() for line in lines[begin:at])


def end_of(lines, at, belongs):
    while at < len(lines) and belongs(lines[at]):
        at += 1
    return at


def indent(line):
    return len(line) - len(line.lstrip(" "))


def strip_ends(lines):
    return "\n".join(lines).strip("\n").split("\n")


def cells(row):
    return [cell.strip().replace("\\|", "|") for cell in re.split(r"(?<!\\)\|", row)[1:-1]]


# What roff is made of

def escaped(text):
    for plain, written in (("\\", "\\e"), ("-", "\\-"), ("^", "\\(ha"), ("~", "\\(ti"), ("`", "\\(ga"), ("'", "\\(aq")):
        text = text.replace(plain, written)
    return text


def inline(text):
    """Text with its marks: code and what is strong are bold, and a link is its text and the name of the document."""
    made = ""
    for mark in re.finditer(r"`([^`]+)`|\*\*(.+?)\*\*|\*(\S.*?)\*|!?\[([^\]]*)\]\(([^)]*)\)|.[^`*\[!]*", text):
        code, strong, weak, link, target = mark.groups()
        if code:
            made += f"\\fB{escaped(code)}\\fR"
        elif strong:
            made += f"\\fB{inline(strong)}\\fR"
        elif weak:
            made += f"\\fI{inline(weak)}\\fR"
        elif target:
            made += linked(link, *target.partition("#")[::2])
        else:
            made += mark[0].replace("\\", "\\e")
    return made


def linked(text, document, anchor):
    """A link's text, with the document that it leads to; in the place of a document's name the page that has its section."""
    for page in PAGES if text == document else ():
        if anchor in [anchor_of(heading) for place, heading in page.sections if place == document and heading]:
            return f"\\fB{escaped(page.name)}\\fR({page.number})"
    return inline(text) + (f" ({document})" if "/" not in document and document not in text else "")


def anchor_of(heading):
    return re.sub(r"[^\w\- ]", "", heading.lower()).replace(" ", "-")


def paragraph(text):
    """A line of roff for each sentence. Code and links stay whole."""
    whole = re.sub(r"`[^`]*`|\[[^\]]*\]", lambda mark: mark[0].replace(" ", "\0"), text)
    lines = re.split(r"(?<=[a-z\d)`*\]][.:?]) (?=[A-Z`*\[])", whole)
    return [re.sub(r"^(?=[.'])", r"\\&", inline(line.replace("\0", " "))) for line in lines]


def code(lines):
    return [".PP", ".nf", ".RS 4", *(re.sub(r"^(?=[.'])", r"\\&", escaped(line)) for line in lines), ".RE", ".fi"]


def rows(table):
    """A table, as a list of what its first column says; from the third column on the column's head stands before the cell."""
    made = []
    for first, second, *others in table[2:]:
        made += [".TP", inline(first), *paragraph(second or others.pop(0))]
        for head, cell in zip(table[0][2:], others):
            made += [".br", *paragraph(f"{head}: {cell}")] if cell else []
    return made


def item(mark, parts):
    made = [".IP \\(bu 2"] if mark == "-" else [f".IP {mark} 4"]
    for number, part in enumerate(parts):
        made += paragraph(part[1]) if number == 0 else [".RS 2", *written([part]), ".RE"]
    return made


def written(parts):
    made = []
    for kind, *of in parts:
        if kind == "text":
            made += [".PP", *paragraph(of[0])]
        elif kind == "head":
            made += [f'.SS "{inline(of[0])}"']
        else:
            made += {"code": code, "rows": rows, "item": item}[kind](*of)
    return made


def synopsis(program, parts):
    """The command lines of a program: those that stand as code, and those that begin a table's row."""
    for kind, *of in parts:
        for line in of[0] if kind == "code" else [row[0].strip("`") for row in of[0]] if kind == "rows" else []:
            if line.startswith(f"{program} "):
                yield line


def head(name, number, about, date, version):
    return [f'.TH {name.upper()} {number} {date} "registry {version}" "Schema registry"', ".nh", ".ad l", ".SH NAME", f"{escaped(name)} \\- {about}"]


def tool_manual(name, about, date, version):
    """The help of a tool: what it is called by, and the rest as it stands."""
    asked = subprocess.run([sys.executable, TOP / "tools" / name, "--help"], capture_output=True, text=True, check=True,
                           env={**os.environ, "COLUMNS": "80", "PYTHONDONTWRITEBYTECODE": "1", "NO_COLOR": "1"})
    # Python before 3.10 calls them otherwise.
    usage, _, rest = asked.stdout.replace("optional arguments:", "options:").partition("\n\n")
    made = head(name, 1, about, date, version)
    made += [".SH SYNOPSIS", *code(usage.removeprefix("usage: ").split("\n"))[1:], ".SH DESCRIPTION", *code(rest.strip("\n").split("\n"))[1:]]
    return "\n".join([*made, '.SH "SEE ALSO"', "\\fBregistrylog\\fR(1); DEPLOY.md in \\fI/usr/share/doc/registry\\fR"]) + "\n"


def manual(page, date, version):
    made = head(page.name, page.number, page.about, date, version)
    bodies = [(heading, list(blocks(section(document, heading)))) for document, heading in page.sections]
    if lines := [line for _, body in bodies for line in synopsis(page.name, body)]:
        made += [".SH SYNOPSIS", ".nf", *(f"\\fB{escaped(line)}\\fR" for line in lines), ".fi"]
    for number, (heading, body) in enumerate(bodies):
        title = heading.replace("`", "").upper() if number else "DESCRIPTION"
        made += [f'.SH "{title}"', *written(body)]
    if page.files:
        made += [".SH FILES", *(line for file, about in page.files.items() for line in (".TP", f"\\fI{escaped(file)}\\fR", inline(about)))]
    others = ", ".join(f"\\fB{escaped(other[:-3])}\\fR{other[-3:]}" for other in page.others)
    made += ['.SH "SEE ALSO"', f"{others};", "the documents that are named here are in \\fI/usr/share/doc/registry\\fR"]
    # A heading begins a paragraph itself.
    return re.sub(r"(?m)^(\.S[HS] .*)\n\.PP$", r"\1", "\n".join(made)) + "\n"


def main():
    folder, date, version = sys.argv[1:]
    for page in PAGES:
        Path(folder, f"{page.name}.{page.number}").write_text(manual(page, date, version), encoding="utf-8")
    for name, about in TOOLS.items():
        Path(folder, f"{name}.1").write_text(tool_manual(name, about, date, version), encoding="utf-8")


main()
