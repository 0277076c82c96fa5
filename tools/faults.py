#!/usr/bin/env python3
"""Makes small faults in the definitions and the code of crates, and has the prover try each of them.

usage: tools/faults.py [--each N] [--only WORD] CRATE..

A fault changes one line of a module in specs/ or src/: a number is one more or less; a name is another of its sort; two
operands change places; an operator is another; a test is dropped, or turned round. Or two tests in a row change places. N
in each module (10), spread over these and over the lines, the same ones each time; --only takes the modules whose path has
WORD in it. Comments, imports, the heads of functions and definitions, and contracts are left alone.

Each is tried as a must-fail edit, in a copy of what is committed; one of specs/ that its own crate lets pass is then tried
on the crates above. Printed are, for each crate, how many were refused, how many the prover could not read (BAD EDIT), so
that they say nothing, how many it came to no end with (NOT TRIED), and each that was not refused. Such a one means the same
as before, or states something else that is true too; else a statement is missing. The exit status is 1 where a crate could
not be tried.
"""
import argparse
import collections
import os
import random
import re
import subprocess
import sys
import tempfile

# Names that stand for each other: of a sort, and in reach where the one is.
PAIRS = """Audio Picture/Free Spent/Copy Full/Torn Free/Away Gone/Empty Gone/Away Empty/true false/title_at rule_at
is_copy is_full/is_here is_away/is_empty is_away/is_vacant is_full/one_less one_more/titles rules/ledger titles
rights permits/title_key sti_key/title_key_at sti_key_at/trigger rights/cci trigger/f1 f2/f3 f4/leb ltb
copies full_entries/copy_of full_with/titles_pass rules_pass/here_row plain_row/unless when
ledger_application rules_application/CheckOut MoveIn/CheckIn Delete/Register Record/MoveOut Delete/first second
entry content/answers kinds"""
NAMES = [tuple(pair.split()) for pair in PAIRS.replace("\n", "/").split("/")]
# Operators that stand for each other, in pairs.
OPERATORS = {".antt": "&& || + * / % ≤ < ≡ ≢ × ⊎".split(), ".rt": "== != < <= > >= + - && || & | >> << % / * +".split()}
JOINED = {".antt": (" && ", " || ", " × ", " ⊎ "), ".rt": (" && ", " || ")}
# Words of the language, which are no operands and are given none.
WORDS = set("pub abbrev unfoldable data record where let in use cond elim if else fn mut return match for as".split())
WORDS |= set("when unless limits needs".split())
NUMBER = re.compile(r"(?<![\w.◌])(0x[0-9a-fA-F_]+|\d[\d_]*)(?![\w.]*[A-Za-z])")
# Two operands side by side, behind the name or the bracket that they are given to.
OPERANDS = re.compile(r"(?<=[\w)] )([a-z_][\w.]*)( )([a-z_][\w.]*)(?![\w.(:])")


def numbers(line, ending):
    """A number is one more or less, the same in definitions and in code."""
    for m in NUMBER.finditer(line):
        value = int(m[1].replace("_", ""), 0)
        for other in {value + 1, max(value - 1, 0)} - {value}:
            text = hex(other) if m[1].startswith("0x") else str(other)
            yield line[: m.start()] + text + line[m.end() :]


def names(line, ending):
    """A name is the other of a pair, the same in definitions and in code."""
    for pair in NAMES:
        for one, other in (pair, pair[::-1]):
            for m in re.finditer(rf"(?<!\w){one}(?!\w)", line):
                yield line[: m.start()] + other + line[m.end() :]


def operators(line, ending):
    """An operator is the other of a pair."""
    every = OPERATORS[ending]
    for one, other in list(zip(every[::2], every[1::2])) + list(zip(every[1::2], every[::2])):
        for m in re.finditer(f"(?<= ){re.escape(one)}(?= )", line):
            yield line[: m.start()] + other + line[m.end() :]


def operands(line, ending):
    """Two operands side by side change places."""
    if ending == ".rt":
        for m in re.finditer(r"\(([\w.&*]+(?:, [\w.&*]+)+)\)", line):
            args = m[1].split(", ")
            for k in range(len(args) - 1):
                turned = args[:k] + [args[k + 1], args[k]] + args[k + 2 :]
                yield line[: m.start(1)] + ", ".join(turned) + line[m.end(1) :]
        return
    for m in OPERANDS.finditer(line):
        if not {m[1], m[3], line[: m.start()].split()[-1]} & WORDS:
            yield line[: m.start()] + m[3] + m[2] + m[1] + line[m.end() :]


def reach(line, at, step):
    """Where the operand ends that goes from a place of the line to the right or to the left: at a bracket that it is in, a
    comma, a brace, or the equals sign or the word before it."""
    opens, closes = ("([", ")]}") if step > 0 else (")]", "([{")
    depth = 0
    while 0 <= at < len(line):
        if line[at] in opens:
            depth += 1
        elif depth and line[at] in closes:
            depth -= 1
        elif not depth and line[at] in closes + ",;{":
            break
        elif not depth and step < 0 and line[at] == " " and line[:at].endswith((" =", " if", " let")):
            break
        at += step
    return at


def dropped(line, ending):
    """A test is gone: an operand of several, a line of a list, a step that may refuse; or it never holds, or is turned."""
    for word in JOINED[ending]:
        for m in re.finditer(re.escape(word), line):
            left, right = reach(line, m.start() - 1, -1), reach(line, m.end(), 1)
            yield line[: left + 1] + line[m.end() :]
            yield line[: m.start()] + " " * (line[right - 1] == " ") + line[right:]
    if re.match(r" *∷ \d+ (when|unless|needs) ", line) or re.search(r"^ +\S.*\?;$", line) and " let " not in line:
        yield ""
    m = re.match(r"( *(?:\} else )?if )(?!let )(.*)( \{)$", line)
    if m:
        yield m[1] + "false" + m[3]
        yield m[1] + (m[2][1:] if m[2].startswith("!") else f"!({m[2]})") + m[3]
    if "not (" in line:
        yield line.replace("not (", "(", 1)


KINDS = (numbers, names, operators, operands, dropped)


def is_open(lines, n, ending):
    """Whether a line may be changed: no comment or import, nor the head of a definition or of a function with its contract."""
    line = lines[n]
    if not line.strip() or re.match(r"\s*(--|//|use |ghost |#|infix |pub (data|record|mod|use) )", line):
        return False
    if ending == ".antt":
        return not re.match(r"(abbrev|unfoldable) pub ", line) or " = " in line
    head = re.compile(r" *(pub(\(crate\))? )?(extern \"C\" )?fn ")
    k = n
    while k >= 0 and not head.match(lines[k]):
        if lines[k].strip() == "{":
            return k < n
        k -= 1
    return k < 0 or k < n and lines[k].endswith("{")


def faults(path):
    """The faults of a module that can be told by their lines: the line's number, the kind, and old and new lines in pairs."""
    ending = os.path.splitext(path)[1]
    with open(path, encoding="utf-8") as it:
        lines = it.read().split("\n")
    count = collections.Counter(lines)
    text = "\n".join(lines)
    for n, line in enumerate(lines):
        if count[line] != 1 or text.count(line) != 1 or not is_open(lines, n, ending):
            continue
        for kind in KINDS:
            for new in dict.fromkeys(kind(line, ending)):
                if new != line:
                    yield n, kind.__name__, [(line, new)]
        after = lines[n + 1] if n + 1 < len(lines) else ""
        tests = [re.match(r"( *(?:∷ )?)(\d+)( (?:when|unless|needs) .*)$", it) for it in (line, after)]
        if all(tests) and text.count(after) == 1:
            first, second = tests
            yield n, "exchanged", [(line, first[1] + second[2] + second[3]), (after, second[1] + first[2] + first[3])]


def chosen(path, each):
    """As many as asked for, the kinds in turn, and of a kind first the lines that have none yet."""
    found = list(faults(path))
    random.Random(os.path.basename(path)).shuffle(found)
    kinds, used, picked = sorted({kind for _, kind, _ in found}), collections.Counter(), []
    while len(picked) < each and found:
        for kind in kinds:
            of_kind = [fault for fault in found if fault[1] == kind]
            if of_kind and len(picked) < each:
                fault = min(of_kind, key=lambda fault: used[fault[0]])
                found.remove(fault)
                used[fault[0]] += 1
                picked.append(fault)
    return picked


def write_edits(crate, each, only):
    """The faults of a crate's modules as its must-fail edits, in place of those that it has."""
    folder = os.path.join(crate, "must-fail")
    os.makedirs(folder, exist_ok=True)
    for edit in os.listdir(folder):
        os.remove(os.path.join(folder, edit))
    modules = [f"{part}/{name}" for part in ("specs", "src") for name in sorted(os.listdir(os.path.join(crate, part)))]
    for module in modules:
        if only not in module or os.path.splitext(module)[1] not in JOINED:
            continue
        for number, (line, kind, pairs) in enumerate(chosen(os.path.join(crate, module), each)):
            name = f"{module.replace('/', '_').replace('.', '_')}_{number:02}.edit"
            with open(os.path.join(folder, name), "w", encoding="utf-8") as file:
                file.write(f"# line {line + 1}, {kind}\nfile: {module}\n")
                file.writelines(f"old: {old}\nnew: {new}\n" for old, new in pairs)


def above(top, name):
    """The crates that use one, as they stand in crates.txt."""
    with open(os.path.join(top, "crates.txt"), encoding="utf-8") as file:
        uses = [line.split("#")[0].split(":") for line in file if ":" in line]
    return [crate.split()[0] for crate, below in uses if name in below.split()]


def is_proved(top, crate):
    return not subprocess.run(["rt", "check"], cwd=os.path.join(top, "crates", crate), capture_output=True).returncode


def refuser(top, name, text):
    """The first crate above that is not proved with this edit of specs/, if there is one."""
    path = os.path.join(top, "crates", name, re.search(r"(?m)^file: (.*)$", text)[1])
    with open(path, encoding="utf-8") as file:
        was = changed = file.read()
    for old, new in re.findall(r"(?m)^old: (.*)\nnew: ?(.*)$", text):
        changed = changed.replace(old, new)
    with open(path, "w", encoding="utf-8") as file:
        file.write(changed)
    found = next((crate for crate in above(top, name) if not is_proved(top, crate)), None)
    with open(path, "w", encoding="utf-8") as file:
        file.write(was)
    return found


def tried(top, name):
    """Has the prover try a crate's edits, and prints what came of them."""
    ran = subprocess.run(["rt", "must-fail", name], cwd=top, stdout=subprocess.PIPE, stderr=subprocess.STDOUT, text=True)
    came = dict(re.findall(rf"must-fail {name}/(\S+\.edit): (refused|BAD EDIT|NOT REFUSED|NOT TRIED)", ran.stdout))
    passed = []
    for edit in sorted(edit for edit, what in came.items() if what == "NOT REFUSED"):
        with open(os.path.join(top, "crates", name, "must-fail", edit), encoding="utf-8") as file:
            text = file.read()
        by = refuser(top, name, text) if "file: specs/" in text else None
        came[edit] = f"refused by {by}" if by else "NOT REFUSED"
        passed += [] if by else [text]
    counts = ", ".join(f"{count} {what}" for what, count in sorted(collections.Counter(came.values()).items()))
    print(f"{name}: {counts or ran.stdout}", flush=True)
    print("".join(f"    {line}\n" for text in passed for line in text.split("\n") if line), end="", flush=True)
    return bool(came)


def main():
    words = argparse.ArgumentParser(usage=argparse.SUPPRESS, description=__doc__)
    words.formatter_class = argparse.RawDescriptionHelpFormatter
    words.add_argument("--each", type=int, default=10, metavar="N")
    words.add_argument("--only", default="", metavar="WORD")
    words.add_argument("crates", nargs="+", metavar="CRATE")
    given = words.parse_args()
    root = os.path.join(os.path.dirname(os.path.abspath(__file__)), "..")
    well = True
    with tempfile.TemporaryDirectory() as top:
        packed = subprocess.run(["git", "archive", "HEAD"], stdout=subprocess.PIPE, check=True, cwd=root)
        subprocess.run(["tar", "-x", "-C", top], input=packed.stdout, check=True)
        for name in given.crates:
            write_edits(os.path.join(top, "crates", name), given.each, given.only)
            well = tried(top, name) and well
    return 0 if well else 1


if __name__ == "__main__":
    sys.exit(main())
