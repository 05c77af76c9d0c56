"""A registry that takes a copy, and nothing else until the copy is equal.

In the mode IMPORT a registry refuses each registration without an id, so no client gets an id from half a copy. The mode that comes
afterwards is noted at the registry itself, as the mode of a subject that has no versions. A run that finds a copy that was stopped or
killed ends as that one was to end."""
import sys

from asking import RegistryError, Request, get, part, shown
from registries import read_modes, scope_name

NOTE = "copy-registry-mode"   # the notes are the modes of the subject of this name, and of those whose names begin so
CLOSED = ("IMPORT", "READONLY")
AS_NOTES = {"READWRITE": "IMPORT"}   # so that the subjects of the notes take no registration of a client either
OF_NOTES = {"IMPORT": "READWRITE"}


class ClosedTarget:
    """The modes of TO while it is copied to."""

    def __init__(self, to, end_mode):
        noted = mode_of(to, NOTE)
        self.to, self.has_note = to, noted is not None
        self.mode = mode_of(to, None) or "READWRITE"
        self.is_unfinished = self.mode == "IMPORT" and self.has_note
        self.end = end_mode or (OF_NOTES.get(noted, noted) if self.is_unfinished else self.mode)
        self.is_closed = False   # by this run
        self.ends = {}     # subjects that are closed, and the modes that they get back
        self.notes = {}    # subjects that have a note, and what it says

    def tell(self):
        """Says which mode TO will end in, if it is found in IMPORT."""
        if self.is_unfinished:
            print(f"TO is in the mode IMPORT since a copy that was stopped; it gets the mode {shown(self.end)} once the copy is equal",
                  file=sys.stderr, flush=True)
        elif self.mode == "IMPORT":
            print(f"TO is in the mode IMPORT, and will end in {shown(self.end)}" + ("" if self.end != "IMPORT" else
                  "; --end-mode gives it another one"), file=sys.stderr, flush=True)

    def close(self, modes, takers, subjects, progress):
        """Has TO take imports and nothing else. `modes` are those that subjects have of their own, `takers` those that take something."""
        self.close_all()
        if self.is_unfinished:
            found = read_modes(self.to, [note_of(subject) for subject in subjects], progress)
            self.notes = {subject: OF_NOTES.get(found[note_of(subject)], found[note_of(subject)])
                          for subject in subjects if note_of(subject) in found}
        for subject, own in sorted((subject, own) for subject, own in modes.items() if subject is not None):
            if own == "IMPORT" and subject in self.notes:
                self.ends[subject] = self.notes[subject]
            elif own not in CLOSED or own == "READONLY" and subject in takers:
                self._close_subject(subject, own)

    def close_all(self):
        """Closes TO itself, if it isn't yet."""
        if self.is_closed:
            return
        if self.end != "IMPORT":
            self._write_note(NOTE, self.end)
            self.has_note = True
        if self.mode != "IMPORT":
            set_mode(self.to, None, "IMPORT")
            self.mode = "IMPORT"
        self.is_closed = True

    def _close_subject(self, subject, own):
        self._write_note(note_of(subject), own)
        self.notes[subject] = self.ends[subject] = own
        set_mode(self.to, subject, "IMPORT")

    def _write_note(self, note, mode):
        set_mode(self.to, note, AS_NOTES.get(mode, mode))

    def put_back(self, wanted):
        """Gives subjects their own modes: those that are wanted, and to the others that were closed the one that they had."""
        for subject, mode in {**self.ends, **wanted}.items():
            set_mode(self.to, subject, mode)
        for subject in self.notes:
            set_mode(self.to, note_of(subject), None)

    def open(self):
        """Gives TO the mode that it ends in."""
        if self.mode != self.end:
            set_mode(self.to, None, self.end)
            self.mode = self.end
        if self.has_note:
            set_mode(self.to, NOTE, None)


def note_of(subject):
    return f"{NOTE}:{subject}"


def mode_of(registry, scope):
    """The scope's own mode, or None."""
    answer = registry.ask(get(mode_path(scope)))
    if answer.is_ok and isinstance(answer.body, dict):
        return str(answer.body.get("mode"))
    return None


def set_mode(registry, scope, mode):
    """Sets a scope's own mode, or clears it if that is None."""
    if mode is None:
        answer = registry.ask(Request("DELETE", mode_path(scope)))
    else:
        answer = registry.ask(Request("PUT", mode_path(scope) + "?force=true", {"mode": mode}))
    if not answer.is_ok and not (mode is None and answer.is_missing):
        raise RegistryError(f"{registry.name} refuses the mode {mode or 'to be cleared'} of {scope_name(scope)}: {answer.reason()}")


def mode_path(scope):
    return "/mode" if scope is None else f"/mode/{part(scope)}"
