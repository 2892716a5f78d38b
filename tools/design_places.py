"""Counts the places that docs/DESIGN-PASS.md speaks of, in the source of a commit: python3 tools/design_places.py COMMIT

Each point has a search of the text (a regular expression over the lines of crates/*/src/*.rt), and two have one over whole functions:
bodies that are alike but for names and numbers, and clauses that three functions or more ask or promise word for word.
"""
import collections
import re
import subprocess
import sys

LINES = [
    ("1 an Option or Result taken apart by hand", r"let (Some|Ok)\(.*\) = .*else \{|^\s*(None|Err\([a-z_]+\)) => "),
    ("1 a number for a refusal", r"Result<[A-Za-z<>]+, u(8|16|32|64)>|\bFigure\(u8\)"),
    ("1 a bool that says nothing", r"^pub fn [a-z_]+\(\) -> bool"),
    ("1 an enum, to be read", r"^pub enum"),
    ("3 a loop, to be read", r"^\s*(for|while|loop) .*\{$|^\s*loop \{$"),
    ("4 a conversion, or printing by hand", r"\bfn (of|of_[a-z]+|read|number|carried|natural|paired|unpaired|rule|in_range|temperature|pressure|pair|lowered)(<[^>]*>)?\(|println!\(rt; \".*\{"),
    ("6 an element by a number, or a Vec behind a reference", r"\b[a-z_]+\[[0-9]+\]|&Vec<|\[[0-9] \* i"),
    ("7 a switch, to be read", r"^\s*match .*\{$"),
]


def source(commit):
    names = subprocess.run(["git", "ls-tree", "-r", "--name-only", commit, "crates"], capture_output=True, text=True, check=True).stdout.split()
    for name in names:
        if re.fullmatch(r"crates/[a-z_]+/src/.*\.rt", name):
            yield name, subprocess.run(["git", "show", f"{commit}:{name}"], capture_output=True, text=True, check=True).stdout


def functions(text):
    """Each function's name, clauses and body; a body ends at the brace in the column of its `fn`."""
    for found in re.finditer(r"^( *)(?:pub(?:\(crate\))? )?fn ([a-z_0-9]+)(.*?)\n(\1\{\n(.*?)\n\1\}|.*?\{\n(.*?)\n\1\})$", text, re.M | re.S):
        yield found[2], found[3] + (found[4] or ""), found[5] or found[6] or ""


def shape(body):
    body = re.sub(r"[0-9][0-9_]*(?:[iu][0-9]+)?", "0", body)
    return " ".join(re.sub(r"\b[A-Za-z_]+(?:::[A-Za-z_]+)*\b", "x", body).split())


def main():
    files = dict(source(sys.argv[1]))
    for title, pattern in LINES:
        hits = [(name, number, line.strip()) for name, text in files.items() for number, line in enumerate(text.split("\n"), 1) if re.search(pattern, line)]
        print(f"== {title}: {len(hits)}")
        for name, number, line in hits:
            print(f"   {name}:{number}: {line[:110]}")
    alike, clauses = collections.defaultdict(list), collections.defaultdict(set)
    for name, text in files.items():
        for function, head, body in functions(text):
            if len(body.split("\n")) >= 2 or "{" in body:
                alike[shape(body)].append(f"{name} {function}")
        for found in re.finditer(r"^ *(?:requires|ensures)(?: [a-z_]+)? (\{.*\})$", text, re.M):
            clauses[" ".join(found[1].split())].add(f"{name}:{text[:found.start()].count(chr(10)) + 1}")
    groups = [g for g in alike.values() if len(g) > 1]
    print(f"== 2 bodies of two lines or more that are alike but for names and numbers: {len(groups)} groups")
    for group in groups:
        print("   " + "; ".join(group))
    often = {c: w for c, w in clauses.items() if len(w) > 2}
    print(f"== 5 clauses that stand word for word in three contracts or more: {len(often)}")
    for clause, where in often.items():
        print(f"   {clause[:120]} ({len(where)}): {', '.join(sorted(where))}")


main()
