#!/usr/bin/env python3
"""What the checker said of each wrong program: the function that it changes is itself refused, and at a fact.

An .edit of crates/NAME/must-fail holds one or more wrong programs, each a line 'name: what it does' and its file:, old: and new:. rt only asks that the
crate as a whole is refused, and keeps no more than the first thing that was found; this asks it of every program. It checks a copy of the crate with all the
programs of a file made, a few crates at a time, and reads all that the checker says:

- a function that is changed is "not proved" or has "no proof", and not because it calls another that hasn't; a goal of its own isn't proved, or an error
  stands in its own files of proof, and it is a fact that fails there, not the proof's shape (a goal, a need, a field or a name that the changed code no longer
  has);
- of a constant that is changed the same holds for a function that reads it, and reads no other constant that the same file changes;
- a definition that is changed stands in a file by itself, and some function or theorem fails at a fact.

It also holds docs/GATE.md and docs/PROMISES.md to the edits: the first lists each wrong program in its table, the second names none that doesn't exist.

    python3 tests/edits.py [CRATE ..]       the edits of these crates, or of all, after a check of each as it stands
    python3 tests/edits.py ci [CRATE ..]    the same, where `rt ci` has just run here: over the libraries that it left, with no check but the edits'
    python3 tests/edits.py --self-test      on logs made up here: each thing above that must fail does
"""
import concurrent.futures
import glob
import os
import re
import shutil
import subprocess
import sys
import tempfile

sys.dont_write_bytecode = True
import times

ROOT = os.path.dirname(os.path.dirname(os.path.abspath(__file__)))

# What the checker says of a declaration that only cites one that was refused.
CITES = re.compile(r"declarations? that depends? on .*, which was (?:rejected|not admitted)")
# What it says where a proof no longer has the shape of the code: a goal, a need, a field or a name that isn't there any more; another place of the code than the
# one meant; in the declaration that hands a function's needs over, an answer to another need. All else that it refuses in a proof is a fact.
SHAPE = re.compile(
    r"has no field|that can be named from here|is not a field|is not in scope|expected type `(?:[\w.-]+\.)?Lts\."
    r"|^`[^`]*[-_]spec`: (?:expected type `(?:[\w.-]+\.)?[Tt]ie\.Need-|computed as far as they go, the two values are|.* where one has `[^`]*\.function )"
)
# What it says of a function where no file of proof answers a goal, and it finds no answer by itself.
SEARCHED = re.compile(r"(?:no proof|not proved): .*`search` did not prove `")


class Program:
    """A wrong program: one pair of an edit."""

    def __init__(self, name, file, old):
        self.name, self.file, self.old = name, file, old


def programs_of(path):
    """The wrong programs of an edit; a text instead, where it isn't in the form."""
    programs, name, file, old = [], None, None, None
    for line in open(path, encoding="utf-8").read().splitlines():
        if line.startswith("file: "):
            file = line[6:]
        elif line.startswith("old: "):
            old = line[5:]
        elif line.startswith("new:"):
            if name is None or file is None or old is None:
                return "a pair has no line 'name: what it does', no file: or no old: before it"
            programs.append(Program(name, file, old))
            name, old = None, None
        elif re.match(r"[a-z0-9_]+: ", line):
            name = line.split(":")[0]
    return programs or "it has no pair"


class Crate:
    """The functions and constants of a crate's src, with their texts."""

    def __init__(self, root, crate):
        self.functions, self.constants, self.items = {}, {}, {}
        texts, homes = {}, {}
        for path in sorted(glob.glob(os.path.join(root, "crates", crate, "src", "*.rt"))):
            module = os.path.basename(path)[:-3]
            text = texts[module] = open(path, encoding="utf-8").read()
            prefix = crate if module in ("lib", "main") else f"{crate}::{module}"
            homes.update((name, f"{prefix}::{name}") for name in re.findall(r"^(?:pub(?:\([a-z]+\))? )?(?:struct|enum) (\w+)", text, re.M))
        for module, text in texts.items():
            prefix = crate if module in ("lib", "main") else f"{crate}::{module}"
            spans = []
            for block in re.finditer(r"^impl(?:<[^>]*>)? (?:(\w+)(<[^>]*>)? for )?(\w+)(?:<[^>]*>)? \{\n.*?^\}", text, re.M | re.S):
                # of a type's own methods the name is TYPE::METHOD, of a trait's TYPE and the trait with its arguments in one, wherever the type's module is
                owner = homes.get(block.group(3), f"{prefix}::{block.group(3)}") + (block.group(1) or "") + re.sub(r"\W", "", block.group(2) or "")
                for m in re.finditer(r"^    (?:pub(?:\([a-z]+\))? )?fn (\w+)", block.group(0), re.M):
                    start = block.start() + m.start()
                    spans.append((start, text.index("\n    }", start) + 6, f"{owner}::{m.group(1)}"))
                    self.functions[spans[-1][2]] = text[spans[-1][0] : spans[-1][1]]
            for m in re.finditer(r"^(?:pub(?:\([a-z]+\))? )?(?:extern \"C\" )?fn (\w+)", text, re.M):
                spans.append((m.start(), text.index("\n}", m.start()) + 2, f"{prefix}::{m.group(1)}"))
                self.functions[spans[-1][2]] = text[spans[-1][0] : spans[-1][1]]
            for m in re.finditer(r"^(?:pub(?:\([a-z]+\))? )?const (\w+):[^;]*(?:;[^;]*)*?;\n", text, re.M):
                spans.append((m.start(), m.end(), m.group(1)))
                self.constants[m.group(1)] = m.group(0)
            self.items[f"src/{module}.rt"] = (text, spans)

    def item(self, program):
        """The function or constant that a program changes, None where it is in neither."""
        text, spans = self.items.get(program.file, ("", []))
        at = text.find(program.old)
        return next((name for start, end, name in spans if start <= at < end), None) if at >= 0 else None

    def readers(self, constant):
        """The functions that read a constant, by themselves or through others."""
        names, grown = {constant}, True
        while grown:
            more = {c for c, text in self.constants.items() if any(re.search(rf"\b{n}\b", text) for n in names)}
            grown, names = not more <= names, names | more
        return {f for f, text in self.functions.items() if any(re.search(rf"\b{n}\b", text) for n in names)}


class Log:
    """What the checker said of an edited crate."""

    def __init__(self, text):
        self.verdicts = dict(re.findall(r"^fn (\S+): (.*)$", text, re.M))
        self.errors = []  # the file below the crate, and what is wrong there, with the declaration
        for file, said in re.findall(r"^(?:\./)?((?:src|specs|proofs)/.+?):\d+:\d+: error: (.*(?:\n  .*)?)$", text, re.M):
            self.errors.append((file, re.sub(r"\s+", " ", said)))

    def facts(self, function=None):
        """Where a fact fails: in the proof of that function, or anywhere."""
        return [said for file, said in self.own(function) if not CITES.search(said) and not SHAPE.search(said)]

    def shapes(self, function=None):
        return [said for file, said in self.own(function) if SHAPE.search(said) and not CITES.search(said)]

    def own(self, function):
        if function is None:
            return self.errors
        folder = "proofs/" + "/".join(function.split("::")[1:])
        return [(f, s) for f, s in self.errors if f.startswith(folder + "/") or f == folder + ".antt"]

    def refused(self, function):
        """What is missing for the function to be refused at a fact of its own; an empty text where nothing is."""
        verdict = self.verdicts.get(function, "not named")
        if self.shapes(function):
            return f"{function} fails at the shape of its proof: {self.shapes(function)[0][:160]}"
        if SEARCHED.match(verdict):
            return ""
        if not verdict.startswith("not proved") or "it calls" in verdict:  # of a walk by hand it says more than "not proved"
            return f"{function} is {verdict}"
        return "" if self.facts(function) else f"{function} is not proved, but at no fact of its own"


def judge(crate, programs, log):
    """What is wrong with an edit, program by program."""
    wrong = []
    if any(not p.file.startswith("src/") for p in programs):
        if len(programs) > 1:
            return ["a definition is changed beside another program: it stands in a file by itself"]
        if not programs[0].file.startswith("specs/"):
            return [f"{programs[0].name}: it changes {programs[0].file}, and neither code nor a definition"]
        return [] if log.facts() or any(map(SEARCHED.match, log.verdicts.values())) else [f"{programs[0].name}: no function and no theorem fails at a fact"]
    items = {p.name: crate.item(p) for p in programs}
    for p in programs:
        item = items[p.name]
        if item is None:
            wrong.append(f"{p.name}: what it changes is in no function and no constant")
        elif list(items.values()).count(item) > 1:
            wrong.append(f"{p.name}: another program of the file changes {item} too")
        elif item in crate.functions:
            said = log.refused(item)
            wrong += [f"{p.name}: {said}"] if said else []
        else:
            others = [i for i in items.values() if i != item and i is not None]
            readers = {f for f in crate.readers(item) if f not in others and not any(f in crate.readers(o) for o in others if o in crate.constants)}
            said = {f: log.refused(f) for f in readers}
            if not any(s == "" for s in said.values()):
                wrong.append(f"{p.name}: no function that reads {item} alone is refused: {'; '.join(said.values()) or 'there is none'}")
    return wrong


def edits_of(root, crates):
    """Each edit as crate, label and programs, and what isn't in the form."""
    edits, wrong, seen = [], [], set()
    for path in sorted(glob.glob(os.path.join(root, "crates", "*", "must-fail", "*.edit"))):
        crate, label = path.split(os.sep)[-3], os.path.basename(path)[:-5]
        if crates and crate not in crates:
            continue
        programs = programs_of(path)
        if isinstance(programs, str):
            wrong.append(f"{crate}/{label}: {programs}")
            continue
        for p in programs:
            if (crate, p.name) in seen:
                wrong.append(f"{crate}/{label}: there are two programs {p.name}")
            seen.add((crate, p.name))
        edits.append((crate, label, programs))
    return edits, wrong


def changed(path, folder):
    """Makes all the programs of an edit in a copy of its crate; what is wrong with it, None where nothing is."""
    texts, file, old = {}, None, None
    for line in open(path, encoding="utf-8").read().splitlines():
        if line.startswith("file: "):
            file = os.path.join(folder, line[6:])
        elif line.startswith("old: "):
            old = line[5:]
        elif line.startswith("new:"):
            if not os.path.isfile(file):
                return f"there is no file {os.path.relpath(file, folder)}"
            text = texts.setdefault(file, open(file, encoding="utf-8").read())
            if text.count(old) != 1:
                return f"{old.strip()!r} stands in {os.path.relpath(file, folder)} {text.count(old)} times, and not once"
            texts[file] = text.replace(old, line[5:])
    for file, text in texts.items():
        open(file, "w", encoding="utf-8").write(text)
    return None


def linked(one, other):
    """Gives what an earlier check kept a second name: a check replaces such a file, and changes none."""
    try:
        os.link(one, other)
    except OSError:
        shutil.copy2(one, other)


def logs_of(root, crate, labels):
    """What the checker says of a crate with each of its edits; a pair of what is wrong and None instead, where it can't be asked."""
    home = os.path.join(root, "crates", crate)
    with tempfile.TemporaryDirectory() as folder:
        kept = os.path.join(folder, "kept")
        if os.path.isdir(os.path.join(home, "out", "incremental")):
            shutil.copytree(os.path.join(home, "out", "incremental"), kept, copy_function=lambda a, b: (linked if a.endswith(".oantt") else shutil.copy2)(a, b))
        for label in labels:
            copy = os.path.join(folder, crate)
            shutil.rmtree(copy, ignore_errors=True)
            for part in ("src", "specs", "proofs"):
                if os.path.isdir(os.path.join(home, part)):
                    shutil.copytree(os.path.join(home, part), os.path.join(copy, part))
            wrong = changed(os.path.join(home, "must-fail", label + ".edit"), copy)
            if wrong:
                yield label, wrong, None
                continue
            for jobs in (2, 1):  # a second time where it was killed, most likely for memory
                ended = subprocess.run(times.command(crate, kept, jobs), cwd=copy, stdout=subprocess.PIPE, stderr=subprocess.STDOUT, text=True, errors="replace")
                if ended.returncode >= 0:
                    break
            said = [line for line in ended.stdout.splitlines() if re.match(r"logic=|rattle: no verdict|\S*error\b", line)]
            if ended.returncode < 0 or not said or not re.match(r"logic=|rattle: no verdict", said[-1]):
                yield label, f"its check gives no verdict: {(said or ended.stdout.splitlines() or ['it was killed'])[-1][:160]}", None
            else:
                yield label, None, ended.stdout


def has_libraries(root, crate):
    """Whether the libraries below a crate stand as `rt ci` leaves them: one with a stamp is an earlier `rt check`'s, and only rt can tell of which files it is."""
    places = [(name, os.path.join(root, "crates", name, "out", "rlib")) for name in times.below(crate, times.needs())]
    return all(os.path.isdir(os.path.join(at, name + ".rlib")) and not os.path.exists(os.path.join(at, "stamp")) for name, at in places)


def checked(root, edits, after_ci):
    """What the checker says with each edit, by its crate and label, and what is wrong where it can't be asked."""
    labels, wrong, logs = {}, [], {}
    for crate, label, _ in edits:
        labels.setdefault(crate, []).append(label)
    for crate in [] if after_ci and all(has_libraries(root, it) for it in labels) else [*labels]:
        # this also builds the libraries below, where they aren't of today's files
        ended = subprocess.run(["rt", "check"], cwd=os.path.join(root, "crates", crate), stdout=subprocess.PIPE, stderr=subprocess.STDOUT, text=True, errors="replace")
        if ended.returncode or not re.search(r"^logic=proved", ended.stdout, re.M):
            wrong.append(f"{crate} isn't proved as it stands: `rt check` there says more")
            del labels[crate]
    free = int(re.search(r"^MemAvailable: *(\d+)", open("/proc/meminfo", encoding="utf-8").read(), re.M).group(1)) // 1_000_000
    with concurrent.futures.ThreadPoolExecutor(max(1, min(len(os.sched_getaffinity(0)) // 2, free // 3))) as pool:
        size = lambda crate: -sum(os.path.getsize(f) for f in glob.glob(os.path.join(root, "crates", crate, "*", "**", "*.*t"), recursive=True)) * len(labels[crate])
        for crate, found in [(it, pool.submit(lambda it=it: list(logs_of(root, it, labels[it])))) for it in sorted(labels, key=size)]:
            for label, fault, log in found.result():
                wrong += [f"{crate}/{label}: {fault}"] if fault else []
                logs[crate, label] = log
    return logs, wrong


def run(root, crates, check):
    """All that is wrong, and a line for each edit."""
    edits, wrong = edits_of(root, crates)
    logs, faults = check(root, edits)
    wrong += faults
    lines, known = [], {}
    for crate, label, programs in edits:
        if logs.get((crate, label)) is None:
            continue
        known.setdefault(crate, Crate(root, crate))
        faults = judge(known[crate], programs, Log(logs[crate, label]))
        wrong += [f"{crate}/{label}: {f}" for f in faults]
        if not faults:
            lines.append(f"{crate}/{label}: {', '.join(p.name for p in programs)}")
    return edits, lines, wrong


def tables(path):
    """The rows of a page's tables, each as its header and its cells."""
    header = None
    for line in open(path, encoding="utf-8").read().splitlines():
        if not line.startswith("|"):
            header = None
            continue
        cells = [c.strip() for c in line.strip().strip("|").split("|")]
        if header is None:
            header = cells
        elif set(line) - set("|- "):
            yield header, cells


def pages(root):
    """What docs/GATE.md and docs/PROMISES.md say of the edits that isn't so."""
    edits, _ = edits_of(root, [])
    wrong, there = [], {(crate, p.name) for crate, _, programs in edits for p in programs}
    listed, crate = set(), ""
    for header, cells in tables(os.path.join(root, "docs", "GATE.md")):
        if "Wrong program" in header:
            crate = cells[0].strip("`") or crate
            listed.add((crate, cells[header.index("Wrong program")].strip("`")))
    wrong += [f"docs/GATE.md has no row for {c}/{n}" for c, n in sorted(there - listed)]
    wrong += [f"docs/GATE.md has a row for {c}/{n}, which doesn't exist" for c, n in sorted(listed - there)]
    names = {n for _, n in there}
    for header, cells in tables(os.path.join(root, "docs", "PROMISES.md")):
        if header[-1] == "Edit":
            for name in re.findall(r"`(\w+)`", re.sub(r"\(.*\)", "", cells[-1])):
                if name not in names:
                    wrong.append(f"docs/PROMISES.md names the edit {name}, which doesn't exist")
    return wrong


def self_test():
    """Logs that must not pass, and one that must: what is left wrong, as texts."""
    source = "const LOW: u8 = 1;\n\nconst PAIR: Row = Row(LOW, 2);\n\nfn low() -> u8 {\n    LOW\n}\n\nfn both(a: u8) -> u8 {\n    low() + a\n}\n\nfn pair() -> Row {\n    PAIR\n}\n"
    two = "first: x.\nfile: src/lib.rt\nold:     low() + a\nnew:     low() + 1\nsecond: y.\nfile: src/lib.rt\nold: const PAIR: Row = Row(LOW, 2);\nnew: const PAIR: Row = Row(LOW, 3);\n"
    fact = "./proofs/{0}/Proof.antt:1:1: error: `returns`: `omega`: the goal does not follow from what it read\n"
    cites = "./proofs/{0}/Proof.antt:9:5: error: 1 declaration that depends on `{1}`, which was {2}, was not checked: {0}_spec\n"
    spec = "./proofs/both/Proof.antt:9:5: error: `both_spec`: "
    others = [
        spec + "computed as far as they go, the two values are `a`\n",
        spec + "expected type `tie.Need-overflow_add-low`, but this has type `tie.Need-returns`\n",
        spec + "as printed, the two types differ only where one has `(Law.function Level)`\n",
    ]
    cited = cites.format("{0}", "close", "not admitted")
    searched = "fn things::{0}: no proof: expected answers in ./proofs/{0}/Answers.antt; `search` did not prove `returns-then-a`, `returns`\n"
    lacks = "fn things::both: no proof: expected ./proofs/both/Invariants.antt\n"
    unable = "fn things::both: could not tell\n"
    gone = "./proofs/both/Answers.antt:6:27: error: `returns-a`: `goal.returns-a`: module `Rattle.things.proofs.both.Goals` has no `returns-a` that can be named from here\n"
    field = "./proofs/both/Answers.antt:1:1: error: `returns`: record `Rattle.things.proofs.both.Lts.Start` has no field `if-a`\n"
    place = "./proofs/both/Proof.antt:1:1: error: `returns`: expected type `Rattle.things.proofs.both.Lts.Then-a`, but this has type `Rattle.things.proofs.both.Lts.Start`\n"
    no = "fn things::{0}: not proved\n"
    calls = "fn things::{0}: not proved; it calls `things::low`, which is not proved\n"
    calling = "fn things::{0}: no proof: it calls `things::low`, which is not proved\n"
    yes = "fn things::{0}: proved\n"
    end = "logic=not-proved\n"
    right = fact.format("both") + cites.format("both", "returns", "rejected") + fact.format("pair") + yes.format("low") + no.format("both") + no.format("pair") + end
    answers = right.replace("both/Proof", "both/Answers")
    definition = "first: x.\nfile: specs/Lib.antt\nold: a\nnew: b\n"
    cases = [
        ("each refused at a fact of its own", two, right, True),
        ("the same, in a file of answers", two, answers, True),
        ("one of two changes nothing", two, fact.format("pair") + yes.format("both") + no.format("pair"), False),
        ("one of two is refused for what it calls", two, cited.format("both") + fact.format("pair") + calls.format("both") + no.format("pair"), False),
        ("the same, with no file of proof", two, fact.format("pair") + calling.format("both") + no.format("pair"), False),
        ("one of two only cites what was rejected", two, cites.format("both", "returns", "rejected") + fact.format("pair") + no.format("both") + no.format("pair"), False),
        *((f"one of two fails at the shape: {s}", two, right.replace(fact.format("both"), s), False) for s in (gone, field, place)),
        *((f"one of two fails at the shape besides a fact: {s}", two, s + right, False) for s in (gone, field, place)),
        ("the same, in two lines", two, field.replace(" has no", "\n  has no") + right, False),
        *((f"one of two answers needs of another shape: {o}", two, right.replace(cites.format("both", "returns", "rejected"), o), False) for o in others),
        ("one of two has no file of proof", two, right.replace(fact.format("both"), "").replace(no.format("both"), searched.format("both")), True),
        ("neither has a file of proof", two, searched.format("both") + searched.format("pair") + end, True),
        ("one of two has no file of proof and fails at the shape", two, field + right.replace(no.format("both"), searched.format("both")), False),
        ("one of two lacks a file", two, right.replace(no.format("both"), lacks), False),
        ("of one of two the checker can't tell", two, right.replace(no.format("both"), unable), False),
        ("of one of two nothing is said", two, right.replace(no.format("both"), ""), False),
        ("the fact is another function's", two, cited.format("both") + fact.format("pair") + no.format("both") + no.format("pair"), False),
        ("the goal is another function's", two, searched.format("low") + searched.format("pair") + calling.format("both"), False),
        ("no reader of the constant is refused", two, fact.format("both") + no.format("both") + yes.format("pair"), False),
        ("two change one function", two.replace("const PAIR: Row = Row(LOW, 2);", "fn both(a: u8) -> u8 {", 1), right, False),
        ("a definition beside another", two.replace("file: src/lib.rt\nold: const", "file: specs/Lib.antt\nold: const"), right, False),
        ("a definition at a fact", definition, fact.format("both") + no.format("both"), True),
        ("a definition at a goal", definition, searched.format("both"), True),
        ("a definition at a shape", definition, field + no.format("both"), False),
        ("a definition at nothing", definition, yes.format("both"), False),
        ("a pair without a name", two.replace("second: y.\n", ""), right, False),
        ("nothing can be asked", two, None, False),
    ]
    wrong = []
    for what, edit, log, passes in cases:
        with tempfile.TemporaryDirectory() as root:
            for path, text in (("crates/things/src/lib.rt", source), ("crates/things/must-fail/both.edit", edit)):
                os.makedirs(os.path.dirname(os.path.join(root, path)), exist_ok=True)
                open(os.path.join(root, path), "w", encoding="utf-8").write(text)
            faults = run(root, [], lambda root, edits, log=log: ({("things", "both"): log}, [] if log else ["things/both: there is no log"]))[2]
            if (faults == []) != passes:
                wrong.append(f"'{what}' {'does not pass: ' + faults[0] if passes else 'passes'}")
    return len(cases), wrong


def main():
    if sys.argv[1:] == ["--self-test"]:
        count, wrong = self_test()
        done = f"tests/edits.py: {count} made-up logs judged as they must be"
    else:
        crates = [it for it in sys.argv[1:] if it != "ci"]
        edits, lines, wrong = run(ROOT, crates, lambda root, edits: checked(root, edits, sys.argv[1:2] == ["ci"]))
        wrong += pages(ROOT) if not crates else []
        print("\n".join(lines))
        done = f"tests/edits.py: {sum(len(p) for _, _, p in edits)} wrong programs in {len(edits)} checks, each refused at a fact of its own"
    for fault in wrong:
        print(f"tests/edits.py: {fault}", file=sys.stderr)
    if wrong:
        sys.exit(1)
    print(done)


if __name__ == "__main__":
    main()
