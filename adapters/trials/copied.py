"""A case of starts from a copy: of one that is whole, cut, changed, of another log, behind a rebase, and of one that can't be written."""
import os

from seats import expect, note, whole
from trial import case


def start(log, path):
    return log.seat(copy=path)


def spoil(path, place, is_changed):
    """Changes a byte of the file, or cuts it there."""
    with open(path, "r+b") as file:
        if is_changed:
            file.seek(place)
            byte = file.read(1)
            file.seek(place)
            file.write(bytes([byte[0] ^ 1]))
        else:
            file.truncate(place)


def ends_with(log, path, *texts):
    """Starts from the copy, and expects these words, and status 2."""
    seat = start(log, path)
    expect(seat.status() == 2 and all(text in seat.said() for text in texts), texts, seat.said())


def goes_on(log, path, *texts):
    """Starts from the copy, expects these words, and that the process has what the log has, and writes on."""
    seat = start(log, path).ready()
    expect(all(text in seat.said() for text in texts), texts, seat.said())
    expect(seat.check() == "kept" and seat.append() == "kept", seat.said())
    log.agree([seat])
    seat.end()
    return seat


@case("etcd", "postgres", "kafka")
def copies(trial, kind):
    """A start from a copy gives what the log has, whatever became of the copy; and one that isn't the log's beginning ends with status 2."""
    log, path = trial.new_log(kind, note(0, "a") + note(1, "b")), os.path.join(trial.folder, "copy")
    other = log.seats(1)[0]
    expect("copy" not in goes_on(log, path).said(), "something is said of a new copy")
    expect(other.append() in ("kept", "behind") and other.append(count=2) == "kept", other.said())
    expect("copy" not in goes_on(log, path).said(), "something is said of a whole copy")
    with open(path, "rb") as file:
        text = file.read()
    expect(os.stat(path).st_mode & 0o777 == 0o600, "others can read it")
    expect(text.count(b"\nbatch ") == 4 and all(line in text for line in other.log), text)
    for place, is_changed in ((len(text) - 1, False), (len(text) // 2, True), (text.index(b"\n") - 1, True), (9, False)):
        spoil(path, place, is_changed)
        goes_on(log, path, "copy %s: " % path, "bytes at its end are cut or changed")
    expect("copy" not in goes_on(log, path).said(), "the copy isn't whole again")
    another = trial.new_log(kind)
    ends_with(another, path, "was put aside")
    expect(os.path.exists(path + ".aside") and not os.path.exists(path), "it wasn't put aside")
    goes_on(another, path)
    log_file = os.path.join(trial.folder, "log")
    with open(log_file, "wb") as file:
        file.write(note(0, "a"))
    for wrong, said in ((log_file, "it is something else"), (os.path.join(trial.folder, "none", "copy"), "No such file")):
        goes_on(log, wrong, "isn't used: ", said)
    with open(log_file, "rb") as file:
        expect(file.read() == note(0, "a"), "a file that is no copy was changed")
    first, second = start(another, path).ready(), start(another, path).ready()
    expect("another adapter has it" in second.said() and "copy" not in first.said(), first.said(), second.said())
    if kind != "kafka":
        gone_past(another, first, second, path)


def gone_past(log, first, second, path):
    """The store's base has gone past the copy: it is dropped, and nobody is told of it."""
    expect(first.append() == "kept", first.said())
    first.end()
    second.wait_until(lambda: second.next == first.next)
    expect(second.append() == "kept" and second.append() == "kept", second.said())
    log.run("rebase", text=whole(b"".join(second.log)))
    log.run("trim")
    expect("copy" not in goes_on(log, path).said() and "copy" not in goes_on(log, path).said(), "something is said of it")
