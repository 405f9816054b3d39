#!/usr/bin/env python3
"""Lists places in crates/*/src that may be written in a plainer form, by pattern.

Usage: tools/places.py [COMMIT]    (the working tree where no commit is given)

Prints each place as POINT FILE:LINE TEXT, and last how many there are of each point. Tests are left out. What no pattern
finds (twins, parameters that travel together) is found by reading.
"""
import re
import subprocess
import sys


def sources(commit):
    """Each file of src/ that is no test's, by name, with its lines."""
    if commit:
        names = subprocess.run(["git", "ls-tree", "-r", "--name-only", commit, "crates"], capture_output=True, text=True, check=True).stdout.split()
        read = lambda name: subprocess.run(["git", "show", f"{commit}:{name}"], capture_output=True, text=True, check=True).stdout
    else:
        names = subprocess.run(["git", "ls-files", "crates"], capture_output=True, text=True, check=True).stdout.split()
        read = lambda name: open(name, encoding="utf-8").read()
    for name in sorted(names):
        if re.fullmatch(r"crates/\w+/src/.*\.rt", name) and not name.endswith("tests.rt"):
            text = read(name)
            yield name, text.split("#[cfg(test)]\nmod tests {")[0].splitlines()


# a point, and what a line, with the one behind it, looks like that is a place of it
PATTERNS = [
    ("1 let-else that hands on None or an error", r"let (Some|Ok)\(.*\) = .* else \{\n\s*return (None|Err\()"),
    ("1 match arm that hands on what it matched", r"^\s*(Ok\((\(\)|_|\w+)\)|Some\(\w+\)|None|Err\(\w+\)) => (Ok\(\(\)\)|Ok\(\w+\)|Some\(\w+\)|None|Err\([\w:]+\)|true|false),?\n"),
    ("1 `if` for Some or None", r"(else \{ None \}|\} else \{\n\s*None$)"),
    ("1 `?;` before `Ok(())`", r"\?;\n\s*Ok\(\(\)\)$"),
    ("1 match arm on a number", r"^\s*\d+( \| \d+)* => "),
    ("1 enum", r"^\s*(pub(\(super\))? )?enum \w+"),
    ("1 flag", r"^\s*(pub(\(super\))? )?(let mut )?\w+(: bool,| = (false|true);)\n"),
    ("3 loop over a range, by position or by a condition", r"^\s*(for .* in .*(\.\.|enumerate\(\)).*|while .*) \{"),
    ("3 loop over items", r"^\s*for (?!.*(\.\.|enumerate\(\))).* in .* \{"),
    ("4 comparison of numbers of values", r"\.number\(\) (==|!=) "),
    ("4 conversion by a function of its own", r"fn (new\(number|number\(self\))"),
    ("4 equality by a function of its own", r"fn (same|spells)\("),
    ("4 text by a function of its own", r"fn (reason|put_number)\("),
    ("5 `requires`", r"^\s*requires"),
    ("5 slice with a position beside it", r"fn .*\(.*bytes: &\[u8\], at: usize"),
    ("6 list, or a count of one, in a field", r"^\s*(pub(\(super\))? )?\w+: (Vec<.*|\[Option<.*|usize),$"),
]


def main():
    commit = sys.argv[1] if len(sys.argv) > 1 else None
    counts = {point: 0 for point, _ in PATTERNS}
    for name, lines in sources(commit):
        for at, line in enumerate(lines):
            two = line + "\n" + (lines[at + 1] if at + 1 < len(lines) else "")
            for point, pattern in PATTERNS:
                found = re.search(pattern, two, re.M)
                if found and found.start() <= len(line):
                    counts[point] += 1
                    print(f"{point}\t{name}:{at + 1}\t{line.strip()[:90]}")
    for point, count in counts.items():
        print(f"{count:4} {point}")


main()
