"""Lists the places that the design pass looks at, of a commit or of the files as they stand.

    tools/places.py [COMMIT]

Each line is a file, a line and its text, below the search that found it. What a search finds is
looked at by a reader, who says in docs/DESIGN-PASS.md which of it are places.
"""

import re
import subprocess
import sys
from collections import defaultdict

SEARCHES = [
    ("1 enums", r"^\s*(pub(\(crate\))? )?enum "),
    ("1 a flag as an answer", r"-> bool\b"),
    ("1 numbers of kinds and refusals", r"(\bkind: u32|=> \d+,|\d+ => (Some|Ok)\(Kind)"),
    ("1 a number that stands for none", r"\{ 0 \}"),
    ("1 errors and nothing handed on by hand", r"(Err\((\w+)\) => Err|None => None|None => Err|Some\(\w+\) => Err)"),
    ("1 an error as an option", r"-> Option<\w*(Fault|Refusal|Error)>"),
    ("3 loops", r"^\s*(for .* in |while |loop \{)"),
    ("3 an index that is counted", r"(\b\w+ (\+|-)= 1;|\[\w+ as usize\]|for \w+ in 0\.\.)"),
    ("4 impls of std's traits", r"^impl.* (From|TryFrom|PartialEq|Ord|PartialOrd|Clone|Display|Debug|Default|Iterator)(<.*>)? for "),
    ("4 conversions by name", r"fn (number|numbered|byte|told|item_told|to_\w+|as_\w+|from_\w+)\b"),
    ("4 types without PartialEq", r"^#\[derive(_where)?\((?!.*PartialEq).*\]"),
    ("5 a premise on a value", r"(well \w+(\.\w+)? →|well\b.*self\.(old|now) →|ring_well .* →|RingWell .* →|Kept \(.* →|Opened .* →|Turning self →)"),
    ("5 a fact that is asked for", r"^\s*requires\b"),
    ("5 a buffer and a place in it", r"(out: &mut \[u8\], (at|index): usize|^\s*at: usize,|bytes: &(mut )?\[u8\], at: usize)"),
    ("6 arrays and slices with a length or a place beside", r"(: \[\w+; \w+\]|at: usize|end: usize|start: usize)"),
    ("7 a switch on a kind", r"(match .*kind|dyn |Box<|\bfn\()"),
]


def files(commit):
    if commit:
        names = subprocess.run(["git", "ls-tree", "-r", "--name-only", commit], capture_output=True, text=True, check=True).stdout.split("\n")
        for name in names:
            if re.match(r"crates/\w+/", name) and name.endswith((".rt", ".antt")):
                yield name, subprocess.run(["git", "show", f"{commit}:{name}"], capture_output=True, text=True, check=True).stdout
        return
    names = subprocess.run(["git", "ls-files", "crates"], capture_output=True, text=True, check=True).stdout.split("\n")
    for name in names:
        if name.endswith((".rt", ".antt")):
            with open(name) as file:
                yield name, file.read()


def functions(text):
    """The functions of a file: name and body, with numbers, widths and types in capitals left out."""
    for found in re.finditer(r"^( *)(?:pub(?:\(crate\))? )?fn (\w+).*?^\1\{\n(.*?)^\1\}$|^( *)(?:pub(?:\(crate\))? )?fn (\w+)[^\n]*\{\n(.*?)^\4\}$", text, re.M | re.S):
        name = found.group(2) or found.group(5)
        body = found.group(3) or found.group(6)
        body = re.sub(r"//.*", "", body)
        body = re.sub(r"\b[A-Z]\w*\b|\b[iu](8|16|32|64|size)\b|\b\d[\d_]*\b|(?<=_)[iu]?(8|16|32|64)\b", "_", body)
        yield name, " ".join(body.split())


def main():
    commit = sys.argv[1] if len(sys.argv) > 1 else None
    all_files = list(files(commit))
    sources = [(name, text) for name, text in all_files if name.endswith(".rt")]
    for title, pattern in SEARCHES:
        lines = [f"{name}:{number}: {line.strip()}" for name, text in sources for number, line in enumerate(text.split("\n"), 1) if re.search(pattern, line)]
        print(f"== {title}: {len(lines)}")
        print("".join(f"{line}\n" for line in lines), end="")
    twins = defaultdict(list)
    for name, text in sources:
        for function, body in functions(text):
            twins[body].append(f"{name} {function}")
    groups = [names for names in twins.values() if len(names) > 1]
    print(f"== 2 functions with one body, but for types and numbers: {len(groups)} groups, {sum(map(len, groups))} functions")
    for names in groups:
        print("; ".join(names))
    proofs = [(name, text) for name, text in all_files if "/proofs/" in name]
    answers = sum(len(re.findall(r"^(?:abbrev )?pub \S+ : goal\.", text, re.M)) for _, text in proofs)
    # A proof file of a function lies in a folder of its own; lemmas lie right below proofs/, and some in specs/.
    lemmas = sum(len(re.findall(r"^ *(?:pub )?[^\s:(]+ : .*(≡|≤|<|→ ⊥|Lawful|Sound)", text, re.M)) for name, text in proofs if re.match(r"crates/\w+/proofs/\w+\.antt$", name))
    lines = sum(text.count("\n") for _, text in proofs)
    specs = sum(text.count("\n") for name, text in all_files if "/specs/" in name)
    print(f"== 8 proofs: {answers} answers and invariants, {lemmas} lemmas below proofs/, {lines} lines of proofs/, {specs} lines of specs/")


main()
