#!/usr/bin/env python3
"""Counts the places of docs/DESIGN-PASS.md in src/ at a revision: tools/design_places.py [REVISION]

Each line names its point and what is counted; a line of code counts once, a comment never."""
import re
import subprocess
import sys

REVISION = sys.argv[1] if len(sys.argv) > 1 else "HEAD"


def git(*words):
    return subprocess.run(["git", *words], capture_output=True, text=True, check=True).stdout


FILES = [it for it in git("ls-tree", "-r", "--name-only", REVISION, "crates").split("\n") if it]
SOURCES = {it: git("show", f"{REVISION}:{it}") for it in FILES if re.match(r"crates/\w+/src/.*\.rt$", it)}
LINES = [line for text in SOURCES.values() for line in text.split("\n") if not re.match(r"\s*//", line)]


def lines(pattern, without="(?!)"):
    return sum(1 for line in LINES if re.search(pattern, line) and not re.search(without, line))


def functions():
    """The functions that take two arrays of one family apart, and those of seven parameters or more."""
    families = [{"homes", "around", "counts"}, {"takes", "gives"}, {"estimates", "remainders"}, {"ceilings", "weights"}]
    apart = long = 0
    for text in SOURCES.values():
        for found in re.finditer(r"fn (\w+)[^(]*\(([^)]*)\)", text):
            names = re.findall(r"(\w+):", found[2])
            apart += any(len(it & set(names)) >= 2 for it in families)
            long += len(names) >= 7
    return f"{apart} take two arrays of one family apart, {long} have seven parameters or more"


def proofs(name):
    found = [it for it in FILES if it.endswith(f"/{name}.antt") and it.count("/") > 3]
    return f"{len(found)} files, {sum(git('show', f'{REVISION}:{it}').count(chr(10)) for it in found)} lines"


OWN = r"\b(Passed|Wrote|WroteBoth|PlaceRead|Checked|Answer|Known|ValueRead|EntryRead|SignedRead|ByteRead|QuickEntry|MembersRead|StateRead|PairRead|Read|Written|Once|More|Filled|Skipped|Located)::[A-Z]"
ENUM = r"^ *(pub )?enum "
CHAIN = r"[.](all|any|filter|contains|fill|copy_from_slice|copy_within)[(]"
CONVERSION = r"\b(wide|wide_count|in_64_bits|magnitude)[(]"
PRINT = r"\b(put|decimal|numbered|byte|size)[(]rt"
print(f"1  enums: {lines(ENUM)}; lines with a case of one of the shape of Option or Result: {lines(OWN)}")
print(f"1  refusals by number: {lines('refusals::[A-Z_]+')} lines; kinds by number: {lines('^const [A-Z]+: u32 = [0-9]+;')}")
print(f"1  structs with a flag beside values: {lines('^    pub (checked|passed): (Checked|Passed)')}")
print(f"3  loops: while {lines('^ *while ')}, for {lines('^ *for ')}, chains and slice methods {lines(CHAIN)}")
print(f"4  conversions by hand: {lines(CONVERSION, 'fn ')} lines; printing by hand: {lines(PRINT)} lines")
print(f"5  functions: {functions()}")
print(f"6  arrays with their size beside: {lines('^(pub )?type [A-Za-z]+ = ')} types")
print(f"7  functions that measure or write by a flag: {lines('writing: bool')}")
print(f"8  proofs of functions: by hand {proofs('Proof')}; answers {proofs('Answers')}; invariants {proofs('Invariants')}")
