"""Lists the places in src/ that may read like an older Rattle, point by point.

    python3 tools/places.py [COMMIT]

It goes by text: a place that it names is one to look at. docs/DESIGN-PASS.md says what became of each.
"""

import collections
import re
import subprocess
import sys

COMMIT = sys.argv[1] if len(sys.argv) > 1 else "HEAD"


def git(*words):
    return subprocess.run(("git",) + words, capture_output=True, text=True, check=True).stdout


FILES = [f for f in git("ls-tree", "-r", "--name-only", COMMIT).split("\n")
         if re.fullmatch(r"crates/\w+/src/.*\.rt", f)]
TEXT = {f: git("show", f"{COMMIT}:{f}") for f in FILES}

# What each point looks for, but for loops and twins, which stand below.
PATTERNS = {
    "1 an error, none or a default passed on by match, if or let-else": [
        r"Err\((\w+)\) => (?:return )?Err\((?:\w+::)*\w*\(?\1\)?\)",
        r"(?:Some|Ok)\((\w+)\) => (?:Ok\(|Some\()?\1\)?,\s*(?:None|Err\(_\)) => ",
        r"let (?:Some|Ok)\([^;]*?\) = [^;]*? else \{\s*return (?:None|Err\([^;]*\));\s*\};",
        r"if [^{;]* \{\s*Some\([^{}]*(?:\{[^{}]*\})?\)\s*\} else \{\s*None\s*\}|if [^{;]* \{\s*None\s*\} else \{\s*Some\([^{}]*(?:\{[^{}]*\})?\)\s*\}",
        r"None => \d,|None => (?:Err|i16::MIN|Height::void)",
    ],
    "1 a number or a flag for what has a case": [
        r"\n(?: *//[^\n]*(?:and 0 if|or 0\b)[^\n]*\n)+ *(?:pub )?fn \w+",
        r"fn flood\(&self[^{;]*-> bool",
    ],
    "4 order, conversion or printing by hand": [
        r"fn at_most\(&self, other: &\w+(?:<\w+>)?\) -> bool \{(?!\s*self <= other)",
        r"pub fn (?:letter|from_letter)\(|pub fn number\(self\) -> u8",
        r"fn (?:code|from_code)\([^)]*\) -> [^;{]*\{",
        r"fn put_number\(|fn digits\(|fn minus\(|println!\(rt; \"\(refused",
    ],
    "5 parameters or fields that travel together": [
        r"\(\s*bytes: &(?:'a )?\[u8\],\s*(?:at|from): usize",
        r"\brows: usize,\s*(?:pub )?(?:pub\(crate\) )?cols: usize",
        r"levels: &mut \[Option<[^>]*>+\],\s*origins: &mut \[Option<usize>\],\s*(?:heap|slots|queue)",
        r"origins: &mut \[Option<usize>\](?:, x: [^)]*|, place: usize)?\)",
        r"levels: &\[Option<M>\],\s*origins: &\[Option<usize>\]",
        r"mouths: &(?:mut |'a )?\[MouthRecord<[^>]*>+\],\s*passes: &",
    ],
    "6 a buffer with a length beside it, or in place of the library's": [
        r"struct \w+(?:<[^{]*>)? \{(?=[^}]*\[\w+; \d+\])(?=[^}]*\b(?:count|len|start): usize)",
        r"slots: &'a mut \[E\],\s*len: usize",
        r"fn copies<|fn blanks\(|let mut \w+ = \[[^\]]*; \d+\];\s*for k in",
    ],
    "7 a switch on which step, or a table of functions": [
        r"\bfn\([^)]*\) ->|Box<dyn|\[fn\(|trait Work|match step\b",
    ],
}


def line(text, at):
    return 1 + text.count("\n", 0, at)


for point, patterns in PATTERNS.items():
    found = {}
    for f in FILES:
        for p in patterns:
            for m in re.finditer(p, TEXT[f]):
                start = m.start() + (1 if m.group().startswith("\n") else 0)
                found[(f, line(TEXT[f], start))] = " ".join(m.group().split())[:90]
    print(f"{point}: {len(found)}")
    for (f, n), words in sorted(found.items()):
        print(f"    {f}:{n}: {words}")

# Loops: a `while`, a place counted by hand, or a `for` over numbers that index a slice.
found = {}
for f in FILES:
    lines = TEXT[f].split("\n")
    for n, head in enumerate(lines):
        loop = re.match(r"( *)(while (?!let)|for (\w+|\([^)]*\)) in )(.*)\{$", head)
        if not loop:
            continue
        end = lines.index(loop.group(1) + "}", n)
        body = "\n".join(lines[n + 1:end])
        by_number = ".." in loop.group(4) and loop.group(3) and re.search(rf"\[[^\]]*\b{loop.group(3)}\b|\[start\.\.", body)
        by_hand = re.search(r"\n? *(?:end|at|place|left|start|count|k|i) [+-]= 1;", "\n" + body)
        if loop.group(2).startswith("while") or by_number or by_hand:
            found[(f, n + 1)] = head.strip()
print(f"3 a loop that counts an index by hand, or goes by it through a slice: {len(found)}")
for (f, n), words in sorted(found.items()):
    print(f"    {f}:{n}: {words}")

# Twins: functions of one name in several places, but for the methods of impls, tests and main.
names = collections.defaultdict(list)
for f in FILES:
    for m in re.finditer(r"(?<!\n)\n(#\[test\]\n)?(?:pub(?:\(crate\))? )?fn (\w+)", "\n" + TEXT[f]):
        if not m.group(1) and m.group(2) != "main":
            names[m.group(2)].append(f"{f}:{line(TEXT[f], m.start() + 1)}")
twins = {n: p for n, p in names.items() if len(p) > 1}
print(f"2 free functions of one name: {len(twins)} names, {sum(map(len, twins.values()))} places")
for n, p in sorted(twins.items()):
    print(f"    {n}: {', '.join(p)}")
