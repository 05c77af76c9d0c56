#!/usr/bin/env python3
"""Writes a log of records with distinct keys, an empty line and a request to its output.

usage: logs.py many|one rising|falling|shuffled|same RECORDS [TEXT]
       logs.py changes RECORDS CHANGES

Each record is of a subject of its own, or all are of one; the offsets rise, fall, come in any order or are the
same. Each schema's text has about TEXT bytes, or is `"string"`. With `changes` a second log stands in the place of
the request: new subjects, new texts, deleted versions and deleted subjects, in turn. The logs are the same at each
run.
"""
import json
import random
import sys


def schema_text(number, length):
    if length == 0:
        return '"string"'
    fields = []
    text = ""
    while len(text) < length:
        fields.append({"name": f"field_{len(fields)}", "type": "long"})
        text = json.dumps({"type": "record", "name": f"Record_{number}", "fields": fields}, separators=(",", ":"))
    return text


def line(offset, number, subjects, length):
    subject, version = (f"subject-{number}", 1) if subjects == "many" else ("subject", number)
    key = f'{{"keytype":"SCHEMA","subject":"{subject}","version":{version},"magic":1}}'
    schema = json.dumps(schema_text(number, length))
    value = f'{{"subject":"{subject}","version":{version},"id":{number},"schema":{schema},"deleted":false}}'
    return f"{offset}\t{key}\t{value}\n"


def write_changes(records, changes):
    for number in range(1, records + 1):
        sys.stdout.write(line(number, number, "many", 0))
    sys.stdout.write("\n")
    for change in range(changes):
        offset = records + 1 + change
        number = random.Random(change).randrange(1, records + 1)
        subject = f"subject-{number}"
        version_key = f'{{"keytype":"SCHEMA","subject":"{subject}","version":1,"magic":1}}'
        subject_key = f'{{"keytype":"DELETE_SUBJECT","subject":"{subject}","magic":0}}'
        lines = [
            line(offset, offset, "many", 0),
            line(offset, number, "many", 100),
            f"{offset}\t{version_key}\tnull\n",
            f'{offset}\t{subject_key}\t{{"subject":"{subject}","version":1}}\n',
        ]
        sys.stdout.write(lines[change % len(lines)])
    sys.stdout.write("\n")


def main():
    if sys.argv[1] == "changes":
        write_changes(int(sys.argv[2]), int(sys.argv[3]))
        return
    subjects, order, count = sys.argv[1:4]
    length = int(sys.argv[4]) if len(sys.argv) > 4 else 0
    numbers = range(1, int(count) + 1)
    offsets = list(numbers)
    if order == "falling":
        offsets.reverse()
    elif order == "shuffled":
        random.Random(7).shuffle(offsets)
    elif order == "same":
        offsets = [7] * len(offsets)
    for offset, number in zip(offsets, numbers):
        sys.stdout.write(line(offset, number, subjects, length))
    sys.stdout.write("\nGET /schemas/ids/1 HTTP/1.1\r\nHost: a\r\n\r\n")


if __name__ == "__main__":
    main()
