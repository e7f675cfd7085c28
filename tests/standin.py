#!/usr/bin/env python3
"""Drives the program standin through a pseudo-terminal, as a controller drives an instrument at its serial port."""
import os
import pty
import select
import subprocess
import sys
import tempfile
import time
import tty

HERE = os.path.dirname(os.path.dirname(os.path.abspath(__file__)))
GSI = os.path.join(HERE, "gsi")
PATIENCE = 10.0  # seconds that a reply, or the program's end, is waited for
CR = b"\r"
CRLF = b"\r\n"
WRONG = b"@W127\r\n"
DONE = b"?\r\n"
USAGE = b"usage: standin [--why] [--keep FILE] [TPS100 | TPS300 | SHEET]\ndocs/REFUSALS.md says what the number of each refusal means.\n"

checks = 0


def check(what, expected, got):
    global checks
    if got != expected:
        print(f"tests/standin.py: {what}\n  expected {short(expected)}\n  got      {short(got)}", file=sys.stderr)
        sys.exit(1)
    checks += 1


def short(value):
    text = repr(value)
    return text if len(text) <= 400 else f"{text[:200]} .. {text[-100:]} ({len(value)} in all)"


class Standin:
    """A running standin. What it says is read at the other end of its terminal, without sending more."""

    def __init__(self, *arguments):
        self.master, line = pty.openpty()
        tty.setraw(line)
        self.errors = tempfile.TemporaryFile()
        self.process = subprocess.Popen([GSI, "standin", *arguments], stdin=line, stdout=line, stderr=self.errors)
        os.close(line)

    def send(self, text):
        while text:
            text = text[os.write(self.master, text):]

    def hear(self, count, patience=PATIENCE):
        """Reads up to count bytes, and fewer only where no more come."""
        came = b""
        end = time.monotonic() + patience
        while len(came) < count and select.select([self.master], [], [], max(0.0, end - time.monotonic()))[0]:
            try:
                more = os.read(self.master, count - len(came))
            except OSError:  # the program ended, and with it the other end of the terminal
                break
            if not more:
                break
            came += more
        return came

    def ask(self, line, expected, what=None):
        """Sends a line with its CR, and holds the reply to what is expected before anything more is sent."""
        self.send(line + b"\r")
        check(what or f"the reply to {line.decode()}", expected, self.hear(len(expected)))

    def silent(self, what):
        check(what, b"", self.hear(1, 0.3))

    def hang_up(self):
        self.silent("nothing is said beyond the replies")
        os.close(self.master)
        check("the program ends when the line is hung up", True, ended(self.process))
        self.errors.seek(0)
        check("nothing is written to standard error", b"", self.errors.read())


def ended(process):
    try:
        process.wait(PATIENCE)
        return True
    except subprocess.TimeoutExpired:
        process.kill()
        return False


def run(arguments, text=b""):
    """Gives what the program writes for an input that ends."""
    done = subprocess.run([GSI, "standin", *arguments], input=text, capture_output=True, timeout=PATIENCE)
    return done.stdout, done.stderr


def file(folder, name, text):
    path = os.path.join(folder, name)
    with open(path, "wb") as out:
        out.write(text)
    return path


def example_sheet():
    with open(os.path.join(HERE, "crates", "sheet", "stdout"), "rb") as example:
        return example.read()


def refuses(path, place):
    told = f"standin: {path} refused=40 place={place}\n".encode()
    check(f"a sheet file that is refused ({os.path.basename(path)})", (b"", told), run([path], b"CONF/70\r"))


FACTORY = {30: 0, 32: 0, 40: 0, 49: 0, 70: 5, 71: 0, 73: 1, 81: 0, 103: 1, 136: 0}
VALUES = [11, 16, 21, 24, 34, 83, 84, 85, 86, 87, 88]


def conf(number, parameter, end=CRLF):
    return b"CONF/%d" % number, b"%04d/%04d" % (number, parameter) + end


def factory_answers(standin):
    for number, parameter in FACTORY.items():
        standin.ask(*conf(number, parameter))
    for index in VALUES:
        standin.ask(b"GET/I/WI%d" % index, WRONG)


def trial():
    """Goes from the factory state and back to it: what was set and put is taken back until there is no more to take back."""
    s = Standin()
    factory_answers(s)
    entries = 0
    for line in [
        *[b"SET/30/1", b"PUT/11....+0000A-12 ", b"SET/40/2", b"SET/40/1", b"PUT/21...2+39999999 "],
        *[b"PUT/88...0+00001550 ", b"PUT/88...1-00002000 ", b"SET/70/0"],
    ]:
        s.ask(line, DONE)
        entries += 1
    for line in [b"SET/40/3", b"SET/33/0", b"SET/30/01", b"PUT/21...2+40000000 ", b"PUT/22...2+00000000 ", b"set/30/1", b"GET/M/WI11", b"CONF/70 "]:
        s.ask(line, WRONG)
    s.ask(*conf(30, 1))
    s.ask(*conf(40, 1))
    s.ask(*conf(70, 0))
    s.ask(b"GET/I/WI11/WI88/WI21/WI88", b"11....+0000A-12 88..11-00002000 21..12+39999999 88..11-00002000 " + CRLF)
    s.ask(b"GET/I/WI88/WI16", WRONG)
    # "Each reply ends as setting 73 said before the line"
    s.ask(b"SET/73/0", DONE)
    entries += 1
    s.ask(*conf(73, 0, CR))
    s.silent("no LF ends a reply while setting 73 is 0")
    s.ask(b"UNDO", b"?\r")
    entries -= 1
    s.ask(*conf(73, 1))
    while entries:
        s.ask(b"UNDO", DONE)
        entries -= 1
    s.ask(b"UNDO", WRONG)
    factory_answers(s)
    # KEEP makes what stands the new start
    s.ask(b"SET/30/1", DONE)
    s.ask(b"KEEP", DONE)
    s.ask(b"UNDO", WRONG)
    s.ask(*conf(30, 1))
    s.hang_up()


def full_list():
    s = Standin()
    for n in range(64):
        s.ask(b"SET/30/1", DONE)
    s.ask(b"SET/30/1", WRONG, "the 65th SET")
    s.ask(b"UNDO", DONE)
    s.ask(b"SET/30/1", DONE, "a SET after the UNDO")
    s.hang_up()


def ends():
    """A line is run at its CR, an LF right after it is swallowed, any other LF is part of a line."""
    s = Standin()
    s.ask(b"CONF/70", b"0070/0005\r\n")
    s.send(b"\n")
    s.silent("an LF after the CR isn't answered")
    s.ask(b"CONF/70", b"0070/0005\r\n", "the line after CR and LF")
    s.ask(b"\nCONF/70", b"0070/0005\r\n", "a line right after the LF")
    s.ask(b"\n\nCONF/70", WRONG, "a second LF is part of the line")
    s.ask(b"CONF\n/70", WRONG, "an LF within a line")
    s.ask(b"CONF/70\n", WRONG, "an LF before the CR")
    s.ask(b"", WRONG, "an empty line")
    s.send(b"CON")
    s.silent("part of a line isn't answered")
    s.ask(b"F/70", b"0070/0005\r\n", "a line sent in two parts")
    s.send(b"SET/30/1\r\nCONF/30\r\nUNDO\rCONF/30\r\n")
    expected = b"?\r\n0030/0001\r\n?\r\n0030/0000\r\n"
    check("four lines sent at once", expected, s.hear(len(expected)))
    s.hang_up()


def long_lines():
    s = Standin()
    s.ask(b"PUT/88...0+00001550 ", DONE)
    s.ask(b"SET/40/2", DONE)
    word = b"88..10+00001550 "
    s.ask(b"GET/I" + b"/WI88" * 19, word * 19 + CRLF, "100 characters, 19 words")
    s.ask(b"GET/I" + b"/WI88" * 20, WRONG, "105 characters")
    for count in [101, 102, 150, 70_000]:
        s.ask(b"A" * count, WRONG, f"a line of {count} characters")
        for place in [1, 99, 100, count - 1]:
            s.ask(b"A" * place + b"\n" + b"A" * (count - place - 1), WRONG, f"a line of {count} characters with an LF at {place}")
    # the start of an over-long line is a line by itself, and it isn't run
    s.ask(b"SET/40/1" + b" " * 150, WRONG, "a SET with 150 blanks after it")
    s.ask(b"UNDO" + b"\n" * 150, WRONG, "an UNDO with 150 LF after it")
    s.ask(b" " * 150 + b"SET/40/1", WRONG, "a SET with 150 blanks before it")
    s.ask(*conf(40, 2))
    s.ask(b"GET/I/WI88", word + CRLF)
    s.ask(b"UNDO", DONE)
    s.ask(*conf(40, 0))
    s.hang_up()


def sheets(folder):
    """Starts from a sheet file, and tries the files that are refused."""
    sheet = example_sheet()
    s = Standin(file(folder, "right", sheet))
    s.ask(*conf(30, 1))
    s.ask(*conf(40, 0))
    s.ask(*conf(70, 5))
    s.ask(b"GET/I/WI88", b"88..10+00001550 \r\n")
    s.ask(b"GET/I/WI11", WRONG)
    s.ask(b"UNDO", WRONG)
    s.ask(b"SET/30/0", DONE)
    s.ask(b"UNDO", DONE)
    s.ask(*conf(30, 1))
    s.hang_up()
    s = Standin(file(folder, "cr", sheet.replace(b"s73=1", b"s73=0")))
    s.ask(*conf(73, 0, CR))
    s.hang_up()

    for name, text, place in [
        ("parameter", sheet.replace(b"s30=1", b"s30=2"), sheet.index(b"s30")),
        ("value", sheet.replace(b"88..10", b"88..12"), sheet.index(b"v88")),
        ("cut", sheet[:-1], sheet.index(b"v88")),
        ("longer", sheet + b"\n", len(sheet)),
        ("much longer", sheet + b"v88=\n" * 20_000, len(sheet)),
        ("crlf", sheet.replace(b"\n", b"\r\n"), 0),
        ("empty", b"", 0),
    ]:
        refuses(file(folder, name, text), place)
    ask = b"CONF/70\r"
    missing = os.path.join(folder, "none")
    check("a sheet file that is missing", (b"", f"standin: {missing}: No such file or directory\n".encode()), run([missing], ask))
    check("a folder for a sheet file", (b"", f"standin: {folder}: Is a directory\n".encode()), run([folder], ask))
    for arguments in [
        *[[missing, missing], ["TPS300", missing], ["--why", "TPS300", missing], ["TPS300", missing, "--why"], ["--why", "--why"]],
        *[["--help"], ["--when"], ["--why", "--help"], ["--whyever"]],
    ]:
        check(f"the arguments {arguments}", (b"", USAGE), run(arguments, ask))


# A TPS300's settings, from their lowest to their highest parameter; the factory's is the lowest.
TPS300 = {
    **{41: (0, 4), 42: (0, 1), 43: (0, 6), 50: (0, 4), 51: (0, 4), 55: (1, 10), 56: (1, 10), 70: (0, 6), 71: (0, 2), 73: (0, 1)},
    **{75: (0, 1), 76: (0, 1), 78: (0, 50), 90: (0, 10), 91: (0, 100), 95: (0, 1), 102: (0, 1), 103: (0, 1), 104: (0, 100), 105: (0, 100)},
    **{106: (0, 1), 120: (0, 1), 122: (0, 1), 135: (0, 8), 136: (0, 127), 137: (0, 1), 160: (0, 1), 161: (0, 10), 170: (0, 1), 171: (0, 1)},
}
ASKED = [90, 91, 122, 160, 170]


def sheet_300(parameters, values):
    settings = b"".join(b"s%d=%d\n" % (number, parameters.get(number, lowest)) for number, (lowest, _) in TPS300.items())
    return b"series=TPS300\n" + settings + b"".join(b"v%d=%s\n" % (index, values.get(index, b"")) for index in VALUES)


def tps300(folder):
    """Plays the other series: its factory, the numbers that can only be asked for, GET in wide words, and its sheets."""
    done, wrong = b"?\r", b"@W127\r"
    narrow, wide = b"83..10+00000001 ", b"83..10+0000000000000001 "
    s = Standin("TPS300")
    s.ask(b"CONF/137", b"0137/0000\r")
    s.silent("no LF ends a TPS300's reply at the factory")
    for number, (lowest, _) in TPS300.items():
        s.ask(*conf(number, lowest, CR))
    for number in ASKED:
        s.ask(b"SET/%d/1" % number, wrong)
        s.ask(b"SET/%d/9999" % number, wrong)
    for line in [b"CONF/30", b"SET/30/1", b"CONF/138", b"SET/138/0", b"SET/55/0", b"SET/55/11", b"SET/95/2", b"SET/161/2", b"SET/161/8", b"SET/161/11"]:
        s.ask(line, wrong)
    s.ask(b"UNDO", wrong, "an UNDO where no SET was accepted")
    for number, parameter in [(55, 10), (161, 9), (161, 10), (103, 1), (136, 127)]:
        s.ask(b"SET/%d/%d" % (number, parameter), done)
        s.ask(*conf(number, parameter, CR))
        s.ask(b"UNDO", done)
        s.ask(*conf(number, TPS300[number][0], CR))
    # "When 137 is 1, GET answers a `*` and then wide words"
    s.ask(b"PUT/11....+0000A-12 ", done)
    s.ask(b"PUT/83...0+00000001 ", done)
    s.ask(b"GET/I/WI83", narrow + CR)
    s.ask(b"SET/137/1", done)
    s.ask(b"GET/I/WI83", b"*83..10+0000000000000001 \r")
    s.ask(b"GET/I/WI11/WI83", b"*11....+000000000000A-12 " + wide + CR)
    s.ask(b"GET/I/WI83/WI88", wrong)
    s.ask(*conf(137, 1, CR))
    s.ask(b"PUT/83...0+0000000000000001 ", wrong, "a PUT of a wide word")
    s.ask(b"SET/73/1", done)
    s.ask(b"GET/I" + b"/WI83" * 19, b"*" + wide * 19 + CRLF, "the longest reply")
    s.ask(b"UNDO", DONE)
    s.ask(b"UNDO", done)
    s.ask(b"GET/I/WI83", narrow + CR)
    s.hang_up()

    # a file of a series' name is a file where the path says so, and any file starts the series that it names
    sheet = sheet_300({90: 10, 91: 100, 122: 1, 137: 1, 160: 1, 170: 1}, {83: narrow[:15]})
    s = Standin(file(folder, "TPS100", sheet))
    for number, parameter in [(41, 0), (55, 1), (90, 10), (91, 100), (122, 1), (137, 1), (160, 1), (170, 1)]:
        s.ask(*conf(number, parameter, CR))
    s.ask(b"GET/I/WI83", b"*" + wide + CR)
    s.ask(b"UNDO", wrong)
    s.ask(b"SET/90/0", wrong)
    s.hang_up()
    s = Standin(file(folder, "TPS300", example_sheet()))
    s.ask(*conf(30, 1))
    s.hang_up()
    most = {number: highest for number, (_, highest) in TPS300.items()}
    units = {11: b"..", 16: b"..", 21: b"12", 24: b"12"}
    longest = sheet_300(most, {index: b"%d..%s+00000001" % (index, units.get(index, b"10")) for index in VALUES})
    check("the longest sheet's bytes", 441, len(longest))
    s = Standin(file(folder, "longest", longest))
    s.ask(*conf(136, 127))
    s.ask(b"GET/I/WI11/WI21", b"*11....+0000000000000001 21..12+0000000000000001 " + CRLF)
    s.hang_up()

    for name, text, place in [
        ("neither", sheet.replace(b"TPS300", b"TPS200"), 0),
        ("series alone", b"series=TPS300", 0),
        ("named TPS100", sheet.replace(b"TPS300", b"TPS100"), len(b"series=TPS100\n")),
        ("named TPS300", example_sheet().replace(b"TPS100", b"TPS300"), len(b"series=TPS300\n")),
        ("below", sheet.replace(b"s55=1", b"s55=0"), sheet.index(b"s55")),
        ("between", sheet.replace(b"s161=0", b"s161=2"), sheet.index(b"s161")),
        ("leading zero", sheet.replace(b"s90=10", b"s90=010"), sheet.index(b"s90")),
        ("wide", sheet.replace(narrow[:15], wide[:23]), sheet.index(b"v83")),
        ("longer than the longest", longest + b"\n", len(longest)),
    ]:
        refuses(file(folder, name, text), place)

    lines = b"CONF/30\rCONF/73\rCONF/137\rPUT/83...0+00000001 \rGET/I/WI83\r"
    answers = b"0030/0000\r\n0073/0001\r\n@W127\r\n?\r\n83..10+00000001 \r\n"
    check("standin", (answers, b""), run([], lines))
    check("standin TPS100", (answers, b""), run(["TPS100"], lines))


def noughts(folder):
    """Plays minus nought: put over nought, given back with its minus, taken back; and a sheet holds it and starts the stand-in with it."""
    s = Standin()
    lines = b""
    words = b""
    for index, units in [(21, b"234"), (24, b"234")] + [(i, b"01") for i in [34, 83, 84, 85, 86, 87, 88]]:
        for unit in units:
            put = b"PUT/%d...%c-00000000 " % (index, unit)
            minus = b"%d..1%c-00000000 " % (index, unit)
            get = b"GET/I/WI%d" % index
            s.ask(put.replace(b"-", b"+"), DONE)
            s.ask(put, DONE)
            s.ask(get, minus + CRLF)
            s.ask(b"UNDO", DONE)
            s.ask(get, minus.replace(b"-", b"+") + CRLF)
            s.ask(put, DONE)
        lines += put + b"\r"
        words += minus
    s.ask(b"PUT/21...2-40000000 ", WRONG, "minus 400 gon")
    s.ask(b"PUT/11....-00000000 ", WRONG, "text with a minus")
    get = b"GET/I/WI21/WI24/WI34/WI83/WI84/WI85/WI86/WI87/WI88"
    s.ask(get, words + CRLF, "minus nought at nine places")
    s.hang_up()

    path = os.path.join(folder, "noughts")
    with open(path, "wb") as out:
        subprocess.run([GSI, "sheet"], input=lines, stdout=out, check=True, timeout=PATIENCE)
    with open(path, "rb") as sheet:
        held = [line[4:] for line in sheet.read().split(b"\n") if line[:1] == b"v" and len(line) > 4]
    check("the sheet's values", [word for word in words.split(b" ") if word], held)
    s = Standin(path)
    s.ask(get, words + CRLF, "minus nought from a sheet")
    s.ask(b"UNDO", WRONG)
    s.hang_up()


def why(folder):
    """Asks why each line was refused: standard error has its number, the refusal's, for a PUT word the rule and the byte, and the line with a caret."""
    lines = b"SET/40/2\rPUT/83...0+00000001 \rSET/40/3\rPUT/83...0+000A5320 \r\nUNDO\r"
    replies = DONE * 2 + WRONG * 2 + DONE
    said = (
        b"line=3 refused=24\nSET/40/3\n"
        b"line=4 refused=26 which=8 byte=14\nPUT/83...0+000A5320 \n              ^\n"
    )
    check("standin without --why", (replies, b""), run([], lines))
    check("standin --why", (replies, said), run(["--why"], lines))
    check("standin --why TPS100", (replies, said), run(["--why", "TPS100"], lines))
    check("standin TPS100 --why", (replies, said), run(["TPS100", "--why"], lines))
    check("--why with a sheet file", (replies, said), run(["--why", file(folder, "why", example_sheet())], lines))
    check("--why with a TPS300", (b"@W127\r", b"line=1 refused=38\nSET/90/1\n"), run(["TPS300", "--why"], b"SET/90/1\r"))
    check("a file named --why", (replies, b""), run([file(folder, "--why", example_sheet())], lines))

    # each refusal; the byte of 26 counts from the line's start, and the others tell none
    full = b"SET/30/1\r" * 64
    for before, line, told in [
        *[(b"", b"SET/30\n/1", b"20"), (b"", b"A" * 101, b"21"), (b"", b"", b"22"), (b"", b"set/30/1", b"22"), (b"", b"UND", b"22")],
        *[(b"", b"UNDO1", b"39"), (b"", b"SETTLE", b"39"), (b"", b"GET/M/WI11", b"39"), (b"", b"PUT/83...0+00000001", b"39")],
        *[(b"", b"SET/33/0", b"23"), (b"", b"CONF/33", b"23"), (b"", b"PUT/82...0+00000001 ", b"25"), (b"", b"GET/I/WI88", b"27")],
        *[(full, b"SET/30/1", b"28"), (b"", b"UNDO", b"29")],
        *[(b"", b"PUT/83x..0+00000001 ", b"26 which=6 byte=6"), (b"", b"PUT/83..10+00000001 ", b"26 which=6 byte=8")],
        *[(b"", b"PUT/83...2+00000001 ", b"26 which=6 byte=9"), (b"", b"PUT/11....-00000001 ", b"26 which=7 byte=10")],
        *[(b"", b"PUT/83...0+0000000x ", b"26 which=8 byte=18"), (b"", b"PUT/83...0+00000001,", b"26 which=9 byte=19")],
        *[(b"", b"PUT/21...2-40000000 ", b"26 which=10 byte=11"), (b"", b"PUT/16....+\x07bc\xc8efgh ", b"26 which=8 byte=11")],
    ]:
        number = before.count(b"\r") + 1
        shown = bytes(b if 32 <= b <= 126 else ord(".") for b in line)
        caret = b" " * int(told.split(b"=")[-1]) + b"^\n" if told.startswith(b"26") else b""
        expected = b"line=%d refused=%s\n%s\n%s" % (number, told, shown, caret)
        check(f"why {line[:40]!r} is refused", (DONE * (number - 1) + WRONG, expected), run(["--why"], before + line + b"\r"))
    check("an over-long line", (WRONG, b"line=1 refused=21\n" + b"A" * 101 + b"\n"), run(["--why"], b"A" * 70_000 + b"\r"))
    check("the last line, without CR, isn't run", (DONE, b""), run(["--why"], b"SET/30/1\rSET/30/9"))


def input_ends():
    check("a last line without CR isn't run", (b"?\r\n", b""), run([], b"SET/30/1\rCONF/30"))
    check("no input", (b"", b""), run([]))
    check("every line of an input that is there at once", (b"?\r\n" * 64 + WRONG * 2936, b""), run([], b"SET/30/1\r\n" * 3000))


def output_fails():
    with open("/dev/full", "wb") as full:
        process = subprocess.Popen([GSI, "standin"], stdin=subprocess.PIPE, stdout=full)
        process.stdin.write(b"CONF/70\r")
        process.stdin.flush()
        check("the program ends when nothing can be written any more", True, ended(process))
        process.stdin.close()


def main():
    # The first run of a program builds it, and that takes its time.
    for program in ["standin", "sheet"]:
        subprocess.run([GSI, program], stdin=subprocess.DEVNULL, stdout=subprocess.DEVNULL, check=True)
    trial()
    full_list()
    ends()
    long_lines()
    with tempfile.TemporaryDirectory() as folder:
        sheets(folder)
        tps300(folder)
        noughts(folder)
        why(folder)
    input_ends()
    output_fails()
    print(f"standin: {checks} checks passed")


main()
