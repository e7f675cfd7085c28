#!/usr/bin/env python3
"""Holds `standin --keep` to its word: the file has every change that was answered, whatever cuts the stand-in off, and `move` and `back` to the sheets' bytes."""
import os
import random
import resource
import signal
import subprocess
import sys
import tempfile
import time

HERE = os.path.dirname(os.path.dirname(os.path.abspath(__file__)))
GSI = os.path.join(HERE, "gsi")
PATIENCE = 20.0  # seconds that a reply, or the program's end, is waited for
KILLS = 200
USAGE = b"usage: standin [--why] [--keep FILE] [TPS100 | TPS300 | SHEET]\ndocs/REFUSALS.md says what the number of each refusal means.\n"
MOVES = b"usage: move < SHEET > FILE\n       back < SHEET > FILE\ndocs/REFUSALS.md says what the number of each refusal means.\n"

checks = 0


def check(what, expected, got):
    global checks
    if got != expected:
        print(f"tests/keep.py: {what}\n  expected {short(expected)}\n  got      {short(got)}", file=sys.stderr)
        sys.exit(1)
    checks += 1


def short(value):
    text = repr(value)
    return text if len(text) <= 1200 else f"{text[:600]} .. {text[-500:]}"


# A TPS100 by the documents: each setting's highest parameter and the factory's, and a word of each value.
SETTINGS = {
    **{30: (1, 0), 32: (3, 0), 34: (1, 0), 40: (2, 0), 41: (1, 0), 44: (2, 0), 49: (1, 0), 50: (2, 0), 70: (5, 5), 71: (2, 0), 73: (1, 1), 76: (1, 0)},
    **{80: (1, 0), 81: (2, 0), 95: (1, 0), 102: (1, 0), 103: (1, 1), 135: (1, 0), 136: (1, 0)},
}
UNITS = {11: b".", 16: b".", 21: b"234", 24: b"234", 34: b"01", 83: b"01", 84: b"01", 85: b"01", 86: b"01", 87: b"01", 88: b"01"}


class Model:
    """What the documents say of a trial: settings, values and the undo list after some lines."""

    def __init__(self):
        self.held = {b"s%d" % number: b"%d" % factory for number, (_, factory) in SETTINGS.items()}
        self.held.update({b"v%d" % index: b"" for index in UNITS})
        self.undo = []

    def copy(self):
        other = Model()
        other.held, other.undo = dict(self.held), list(self.undo)
        return other

    def run(self, line):
        """Plays a line that `lines` made, and tells whether it is accepted."""
        word = line.split(b"/")
        if word[0] in (b"SET", b"PUT"):
            if len(self.undo) == 64:
                return False
            if word[0] == b"SET":
                key, now = b"s" + word[1], word[2]
                if int(now) > SETTINGS[int(word[1])][0]:
                    return False
            else:
                put = word[1]
                mark = b"." if put[5:6] == b"." else b"1"
                key, now = b"v" + put[:2], put[:2] + b".." + mark + put[5:15]
            self.undo.append((key, self.held[key]))
            self.held[key] = now
        elif word[0] == b"UNDO":
            if not self.undo:
                return False
            key, former = self.undo.pop()
            self.held[key] = former
        elif word[0] == b"KEEP":
            self.undo = []
        return True

    def first(self):
        """The sheet of form 1."""
        return b"series=TPS100\n" + b"".join(b"%s=%s\n" % item for item in self.held.items())

    def sheet(self):
        return b"form=2\n" + self.first() + b"undo=%d\n" % len(self.undo) + b"".join(b"u=%s:%s\n" % entry for entry in self.undo)


def lines(chance):
    """A line that the model knows, without its CR."""
    kind = chance.random()
    if kind < 0.4:
        number = chance.choice([n for n in SETTINGS if n != 73])
        return b"SET/%d/%d" % (number, chance.randint(0, SETTINGS[number][0] + (chance.random() < 0.1)))
    if kind < 0.75:
        index = chance.choice(list(UNITS))
        unit = bytes([chance.choice(UNITS[index])])
        sign = b"+" if unit == b"." else chance.choice([b"+", b"-"])
        return b"PUT/%d...%s%s%08d " % (index, unit, sign, chance.choice([0, 1550, chance.randint(1, 350) * 100_000]))
    if kind < 0.93:
        return b"UNDO"
    return b"KEEP" if kind < 0.95 else b"CONF/70"


def run(arguments, text=b"", program="standin", **more):
    done = subprocess.run([GSI, program, *arguments], input=text, capture_output=True, timeout=PATIENCE, **more)
    return done.stdout, done.stderr


def read(path):
    with open(path, "rb") as came:
        return came.read()


def write(path, text):
    with open(path, "wb") as out:
        out.write(text)
    return path


class Kept:
    """A stand-in that keeps a file, driven line by line."""

    def __init__(self, *arguments, **more):
        self.process = subprocess.Popen(
            [GSI, "standin", *arguments], stdin=subprocess.PIPE, stdout=subprocess.PIPE, stderr=subprocess.PIPE, bufsize=0, **more
        )

    def ask(self, line):
        """Sends a line, and gives its reply, or nothing where the program ended."""
        self.process.stdin.write(line + b"\r")
        return self.process.stdout.readline()

    def end(self):
        out, err = self.process.communicate(timeout=PATIENCE)
        return out, err


def trial(folder):
    """Every reply finds the file as the line left it, and what alters nothing leaves the file itself."""
    chance = random.Random(106)
    path = os.path.join(folder, "trial")
    model = Model()
    s = Kept("--keep", path)
    check("no file before the first change", (b"0070/0005\r\n", False), (s.ask(b"CONF/70"), os.path.exists(path)))
    check("nothing to take back, nothing to keep", (b"@W127\r\n", False), (s.ask(b"UNDO"), os.path.exists(path)))
    check("a KEEP that alters nothing", (b"?\r\n", False), (s.ask(b"KEEP"), os.path.exists(path)))
    many = 0
    for _ in range(300):
        line = lines(chance)
        before, file = model.sheet(), os.stat(path).st_ino if os.path.exists(path) else None
        accepted = model.run(line)
        reply = s.ask(line)
        if line != b"CONF/70":
            check(f"the reply to {line!r}", b"?\r\n" if accepted else b"@W127\r\n", reply)
        if model.sheet() != before:
            check(f"the file after {line!r}", model.sheet(), read(path))
            many += 1
        elif file is not None:
            check(f"the file itself after {line!r}, which alters nothing", file, os.stat(path).st_ino)
        check("no new file is left beside it", False, os.path.exists(path + ".new"))
    check("lines that alter the state", True, many > 200)
    check("the end of the input", (b"", b""), s.end())

    # goes on where it was cut off, and takes the whole list back, the newest first
    while len(model.undo) < 20:
        model.run(b"SET/30/1")
    write(path, model.sheet())
    s = Kept("--keep", path)
    while model.undo:
        model.run(b"UNDO")
        check("an entry of the loaded list taken back", (b"?\r\n", model.sheet()), (s.ask(b"UNDO"), read(path)))
    check("an UNDO past the loaded list", b"@W127\r\n", s.ask(b"UNDO"))
    s.end()
    while len(model.undo) < 64:
        model.run(b"PUT/88...0+00001550 ")
    write(path, model.sheet())
    s = Kept("--keep", path)
    check("a SET after a full list", b"@W127\r\n", s.ask(b"SET/30/1"))
    check("a file with a full list", model.sheet(), read(path))
    model.run(b"KEEP")
    check("a KEEP after a loaded list", (b"?\r\n", model.sheet()), (s.ask(b"KEEP"), read(path)))
    check("an UNDO after it", b"@W127\r\n", s.ask(b"UNDO"))
    s.end()


def starts(folder):
    """What it starts from, and what it doesn't start from: the file is left as it is then."""
    model = Model()
    for line in [b"SET/40/2", b"PUT/88...0+00001550 ", b"PUT/88...0-00000000 "]:
        model.run(line)
    second = write(os.path.join(folder, "second"), model.sheet())
    check("a sheet of form 2 without --keep", (b"?\r\n0040/0002\r\n88..10+00001550 \r\n", b""), run([second], b"UNDO\rCONF/40\rGET/I/WI88\r"))
    check("a file that isn't kept", model.sheet(), read(second))
    first = write(os.path.join(folder, "first"), model.first())
    check("a sheet of form 1", (b"0040/0002\r\n@W127\r\n", b""), run(["--keep", first], b"CONF/40\rUNDO\r"))
    check("a sheet of form 1 that nothing altered", model.first(), read(first))
    model.undo = []
    model.run(b"SET/30/1")
    check("its first change", (b"?\r\n", b""), run(["--keep", first], b"SET/30/1\r"))
    check("it is form 2 then", model.sheet(), read(first))
    check("a file in the folder that it runs in", (b"?\r\n", b""), run(["--keep", "here"], b"SET/30/1\r", cwd=folder))
    here = os.path.join(folder, "here")
    check("that file", (True, False), (os.path.exists(here), os.path.exists(here + ".new")))
    # what to start from where there is no file yet, with the arguments in any order
    there = os.path.join(folder, "there")
    for arguments, series in [
        (["--keep", there, "TPS300"], b"TPS300"),
        (["TPS300", "--why", "--keep", there], b"TPS300"),
        (["--why", "--keep", there, "TPS100"], b"TPS100"),
        ([second, "--keep", there], b"TPS100"),
    ]:
        write(there, b"")
        os.unlink(there)
        out, err = run(arguments, b"SET/50/1\rUNDO\rSET/50/2\r")
        check(f"standin {arguments}", (3, b""), (out.count(b"?\r"), err))
        check("the series that is kept", b"form=2\nseries=" + series, read(there).split(b"\ns")[0] + b"\ns" + read(there).split(b"\ns")[1])
        again, err = run(["--keep", there], b"CONF/50\rUNDO\rCONF/50\r")
        check("going on from it", (b"0050/0002", b"0050/0000"), (again[:9], again.rstrip()[-9:]))
    write(there, model.sheet())
    check("the file where it is there, whatever sheet is named", (b"0030/0001\r\n", b""), run(["--keep", there, first + "x"], b"CONF/30\r"))
    other = f"standin: {there} is no sheet of a TPS300\n".encode()
    check("the other series", (b"", other, model.sheet()), (*run(["--keep", there, "TPS300"], b"SET/50/1\r"), read(there)))
    sheet = model.sheet()
    undo = sheet.index(b"undo=")
    for name, text, place in [
        ("empty", b"", 0),
        ("no sheet", b"form=1\n" + sheet[7:], 0),
        ("cut", sheet[:-1], sheet.index(b"u=s30")),
        ("count too high", sheet.replace(b"undo=1", b"undo=2"), len(sheet)),
        ("count too low", sheet.replace(b"undo=1", b"undo=0"), sheet.index(b"u=s30")),
        ("no list of a state", sheet.replace(b"undo=1\n", b"undo=2\nu=v11:\n"), undo),
        ("longer", sheet + b"u=s30:0\n" * 1000, len(sheet)),
    ]:
        path = write(os.path.join(folder, "bad"), text)
        told = f"standin: {path} refused=40 place={place}\n".encode()
        check(f"a file that holds no sheet ({name})", (b"", told, text), (*run(["--keep", path], b"SET/30/1\r"), read(path)))
    check("a folder", (b"", f"standin: {folder}: Is a directory\n".encode()), run(["--keep", folder], b"SET/30/1\r"))
    nowhere = os.path.join(folder, "none", "file")
    check("a folder that isn't there", (b"", f"standin: {nowhere}.new: No such file or directory\n".encode()), run(["--keep", nowhere], b"SET/30/1\r"))
    for arguments in [["--keep"], ["--keep", there, "--keep", there], ["--keep", ""], ["--keep", there, "TPS100", "TPS100"], ["--keeps", there]]:
        check(f"the arguments {arguments}", (b"", USAGE), run(arguments, b"CONF/70\r"))
    write(there + ".new", b"what a stand-in left that was cut off")
    model.run(b"SET/30/0")
    check("a new file from before", (b"?\r\n", b""), run(["--keep", there], b"SET/30/0\r"))
    check("is replaced", (model.sheet(), False), (read(there), os.path.exists(there + ".new")))


def kills(folder):
    """Cut off at any moment: the file loads, and holds every change that was answered. One trial goes on over all the cuts."""
    chance = random.Random(200)
    path = os.path.join(folder, "killed")
    model = Model()
    answered = changed = midway = 0
    for _ in range(KILLS):
        sent = [lines(chance) for _ in range(chance.randint(1, 40))]
        process = subprocess.Popen([GSI, "standin", "--keep", path], stdin=subprocess.PIPE, stdout=subprocess.PIPE, stderr=subprocess.PIPE)
        process.stdin.write(b"".join(line + b"\r" for line in sent))
        process.stdin.flush()
        # some cuts come while it starts, most while it plays
        if chance.random() < 0.8:
            process.stdout.read(1)
        time.sleep(chance.random() * chance.choice([0.002, 0.03, 0.15]))
        process.send_signal(signal.SIGKILL)
        replies = process.stdout.read().count(b"\n")
        process.communicate()
        # the line that was under way may be in the file, though it wasn't answered
        before = model.copy()
        for line in sent[:replies]:
            model.run(line)
        after = model.copy()
        for line in sent[replies : replies + 1]:
            after.run(line)
        held = read(path) if os.path.exists(path) else Model().sheet()
        check("the file holds every change that was answered", True, held in (model.sheet(), after.sheet()))
        if held != model.sheet():
            model = after
            midway += 1
        changed += before.sheet() != model.sheet()
        answered += replies
        loads, err = run([path], b"CONF/70\r") if os.path.exists(path) else (b"0070", b"")
        check("it loads", (b"0070", b""), (loads[:4], err))
    s = Kept("--keep", path)
    while model.undo:
        model.run(b"UNDO")
        check("the list after all the cuts, taken back", (b"?\r\n", model.sheet()), (s.ask(b"UNDO"), read(path)))
    s.end()
    return f"{KILLS} kills, {answered} lines answered, the file changed in {changed}, {midway} times by a line that wasn't answered yet"


def full(path, s, model, told):
    """Sends changes until the disk refuses: the line isn't answered, why is told, and the file holds what was answered."""
    for n in range(64):
        line = b"PUT/%d...0+%08d " % (83 + n % 6, n)
        reply = s.ask(line)
        if not reply:
            break
        model.run(line)
        check("a change that was answered", (b"?\r\n", model.sheet()), (reply, read(path)))
    check("the disk refuses before the list is full", True, n < 64 and not reply)
    check("what is told, and no reply more", (b"", f"standin: {path}.new: {told}\n".encode()), s.end())
    check("the file afterwards", (model.sheet(), False), (read(path), os.path.exists(path + ".new")))


def limited():
    resource.setrlimit(resource.RLIMIT_FSIZE, (400, 400))
    signal.signal(signal.SIGXFSZ, signal.SIG_IGN)  # the write then fails, as on a disk that is full


def disks(folder):
    path = os.path.join(folder, "limited")
    model = Model()
    full(path, Kept("--keep", path, preexec_fn=limited), model, "File too large")
    s = Kept("--keep", path)
    model.run(b"UNDO")
    check("it goes on once the limit is gone", (b"?\r\n", model.sheet()), (s.ask(b"UNDO"), read(path)))
    s.end()
    # a disk of two pages, the second taken up in mid-trial
    disk = os.path.join(folder, "disk")
    os.mkdir(disk)
    page = os.sysconf("SC_PAGE_SIZE")
    if subprocess.run(["mount", "-t", "tmpfs", "-o", f"size={2 * page}", "tmpfs", disk], stderr=subprocess.DEVNULL).returncode != 0:
        return "a limit on the file's size (no small disk can be mounted here)"
    try:
        path = os.path.join(disk, "full")
        model = Model()
        s = Kept("--keep", path)
        model.run(b"SET/30/1")
        check("a change while there is room", (b"?\r\n", model.sheet()), (s.ask(b"SET/30/1"), read(path)))
        write(os.path.join(disk, "other"), bytes(page))
        full(path, s, model, "No space left on device")
    finally:
        subprocess.run(["umount", disk], check=True)
    return "a limit on the file's size and a small disk that is full"


def moves():
    """The programs move and back: the bytes of the other form, or why not, and where."""
    model = Model()
    model.run(b"PUT/88...0+00001550 ")
    model.undo = []
    first, second = model.first(), model.sheet()
    check("move", (second, b""), run([], first, "move"))
    check("back", (first, b""), run([], second, "back"))
    undo = second.index(b"undo=")
    line = second[:undo].count(b"\n") + 1
    some = second.replace(b"undo=0\n", b"undo=1\nu=s40:2\n")
    for program, text, told in [
        ("move", second, b"move: refused=40 place=0 line=1\nform=2\n"),
        ("back", first, b"back: refused=40 place=0 line=1\nseries=TPS100\n"),
        ("move", first.replace(b"TPS100", b"TPS200"), b"move: refused=40 place=0 line=1\nseries=TPS200\n"),
        ("back", some, b"back: refused=41 place=%d line=%d\nundo=1\n" % (undo, line)),
        ("back", some.replace(b"s40:2", b"v11:"), b"back: refused=40 place=%d line=%d\nundo=1\n" % (undo, line)),
        ("back", some.replace(b"s40:2", b"s40:\x003"), b"back: refused=40 place=%d line=%d\nu=s40:.3\n" % (undo + 7, line + 1)),
        ("back", second.replace(b"undo=0", b"undo=1"), b"back: refused=40 place=%d line=%d\n" % (len(second), line + 1)),
        ("move", first[:-1], b"move: refused=40 place=%d line=31\nv88=88..10+00001550\n" % first.index(b"v88")),
        ("move", first + b"x" * 100_000, b"move: refused=40 place=%d line=32\n" % len(first) + b"x" * 80 + b"\n"),
        ("move", b"", b"move: refused=40 place=0 line=1\n"),
    ]:
        check(f"{program} of {text[:30]!r} ..", (b"", told), run([], text, program))
    with open(os.path.join(HERE, "examples", "trial.lines"), "rb") as lines, open(os.path.join(HERE, "examples", "trial.sheet"), "rb") as sheet:
        played, example = run([], lines.read(), "sheet"), sheet.read()
    check("the example's sheet", (example, b""), played)
    check("the example's sheet, there and back", (example, b""), run([], run([], example, "move")[0], "back"))
    check("move with an argument more", (b"", MOVES), run(["x"], first, "move"))
    check("back with an argument more", (b"", MOVES), run(["back"], first, "back"))


def main():
    # The first run of a program builds it, and that takes its time.
    for program in ["standin", "sheet", "move"]:
        subprocess.run([GSI, program], stdin=subprocess.DEVNULL, stdout=subprocess.DEVNULL, stderr=subprocess.DEVNULL, check=True)
    with tempfile.TemporaryDirectory() as folder:
        trial(folder)
        starts(folder)
        cuts = kills(folder)
        filled = disks(folder)
    moves()
    print(f"keep: {checks} checks passed; {cuts}; {filled}")


main()
