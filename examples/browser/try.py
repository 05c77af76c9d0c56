#!/usr/bin/python3
"""Clicks through the page in headless Chromium and Firefox, reads what is shown and takes pictures: try.py REGISTRYLOG [PICTURES [PART ..]].

It brings up `REGISTRYLOG keep`, a follower and nginx with ../nginx.conf in a folder of their own. PICTURES is a folder that is there. With
PARTs, such as try_list, only these are tried. SUBJECTS says how many subjects there are (10,000), BROWSERS which browsers are used, both of
them if they are installed, and PORT the first of three ports. It was run with Chromium 156 and Firefox 153. The status is 1 if something
isn't as it should be. It wants Debian's packages chromium, chromium-driver, python3-selenium, firefox-esr, nginx, openssl and
apache2-utils."""
import os, sys, tempfile, time

import try_looks as looks, try_reading as reading, try_writing as writing
from try_browsers import browsers
from try_page import Page, same, wrong
from try_registry import fill, first_lines
from try_stand import Stand

SUBJECTS = int(os.environ.get("SUBJECTS", 10_000))
EXPECTED = ["status of 404", "status of 422", "status of 409", "status of 401", "status of 502", "Content-Security-Policy", "Content Security Policy"]


def parts():
    """In this order: what one leaves behind the next may use."""
    read = [reading.try_start, reading.try_list, reading.try_identity, reading.try_subject, reading.try_fields, reading.try_taking, reading.try_comparison,
            reading.try_versions, reading.try_missing, reading.try_slow, reading.try_away, reading.try_unanswered, reading.try_refused, reading.try_error, reading.try_checks,
            reading.try_strangers, reading.try_tree_keys, reading.try_list_keys, try_only_read]
    write = [writing.begin_writing, writing.try_new_subject, writing.try_registering, writing.try_late_clash, writing.try_levels, writing.try_modes,
             writing.try_version_deletes, writing.try_refused_restore, writing.try_deletes_for_good, writing.try_unknown, writing.try_evil_commands,
             looks.try_looks, looks.take_picture, writing.try_by_keys, writing.try_by_mouse, writing.try_hostile, try_quiet, try_elsewhere]
    return read + write


def try_only_read(page):
    """Without leave to write the page only read."""
    asked = [line for line in page.stand.asked() if not line.startswith(("GET ", "POST /compatibility/"))]
    same("what the page asked besides reading", [], asked)
    same("no button that writes", [], [it for it in page.texts("button, a") if "…" in it])


def try_quiet(page):
    """A subject without a level of its own, and one with all versions deleted, leave no complaint in the console."""
    page.browser.complaints()
    for subject, version in [("topic-00001", 1), ("gone", 1), ("wide", 1)]:
        page.open(subject, version)
    page.show("id=1")
    page.until_text("#identity-versions", "topic-00000, version 1")
    page.show("subject=wide&version=9")
    page.until_text("#version-missing", "This subject has no version 9.")
    same("what the browser complains of", [], page.browser.complaints())


def try_elsewhere(page):
    names = page.run("return performance.getEntriesByType('resource').map((it) => it.name).filter((name) => new URL(name).origin !== location.origin)")
    same("what was asked elsewhere", [], names)


def run(page, part):
    begun = time.time()
    wanted = part.__code__.co_varnames[:part.__code__.co_argcount]
    part(page, SUBJECTS) if "subjects" in wanted else part(page)
    unknown = [line for line in page.browser.complaints() if not any(words in line for words in EXPECTED)]
    same(f"what the browser complains of in {part.__name__}", [], unknown)
    print(f"{page.browser.name}, {part.__name__}: done after {time.time() - begun:.0f} s", flush=True)


def try_in(kind, program, pictures, chosen):
    with tempfile.TemporaryDirectory() as folder:
        stand = Stand(program, folder)
        try:
            browser = kind(folder)
            try:
                page = Page(browser, stand, folder, pictures)
                browser.size(1300, 1500)
                if not chosen or "try_settings" in chosen:
                    run(page, reading.try_settings)
                stand.settings({"name": "Test registry", "colour": "violet"})
                stand.take_log(first_lines(SUBJECTS))
                fill(stand)
                begun = time.time()
                page.load()
                page.until("the list", lambda: " of " in page.text("#shown"))
                print(f"the list was there after {time.time() - begun:.1f} s", flush=True)
                for part in parts():
                    if not chosen or part.__name__ in chosen:
                        run(page, part)
            finally:
                browser.close()
        finally:
            stand.close()


def main():
    program, pictures, chosen = sys.argv[1], (sys.argv[2:3] or [None])[0], sys.argv[3:]
    used = os.environ.get("BROWSERS", "chromium firefox").split()
    for kind in browsers():
        if kind.name in used:
            try_in(kind, program, pictures, chosen)
    print(f"{len(wrong)} wrong" if wrong else "all as it should be")
    sys.exit(1 if wrong else 0)


main()
