#!/usr/bin/env python3
"""Lists the places in crates/*/src that an older form of the language may have left, point by point.

Usage: python3 tools/places.py [COMMIT]      without a commit, of the working tree

It goes by the text alone, so it finds places to look at, not faults: docs/DESIGN-PASS.md says what became of each.
"""
import re
import subprocess
import sys
from collections import defaultdict


def sources(commit):
    if commit:
        names = subprocess.check_output(["git", "ls-tree", "-r", "--name-only", commit, "crates"], text=True).split("\n")
    else:
        names = subprocess.check_output(["git", "ls-files", "-co", "--exclude-standard", "crates"], text=True).split("\n")
    for name in sorted(names):
        if not re.match(r"crates/\w+/src/.*\.rt$", name):
            continue
        if commit:
            yield name, subprocess.check_output(["git", "show", f"{commit}:{name}"], text=True)
        else:
            yield name, open(name).read()


def without_clauses(text):
    """The code alone: comments, ghost lines and clauses become blanks, lines stay."""
    out = []
    depth = 0
    for line in text.split("\n"):
        bare = re.sub(r"//.*", "", line)
        if depth or re.match(r"\s*(requires|ensures)\b|\s*ghost\b", bare):
            depth += bare.count("{") - bare.count("}")
            out.append("")
        else:
            out.append(bare)
    return "\n".join(out)


def functions(text):
    """Name, line, header, clauses and body of each function."""
    for m in re.finditer(r"^( *)(?:pub(?:\(\w+\))? )?fn (\w+)", text, re.M):
        indent = m.group(1)
        end = re.compile(rf"^{indent}(?:\}}|\{{\}})$", re.M).search(text, m.end())
        whole = text[m.start() : end.end() if end else len(text)]
        parts = re.split(rf"^{indent}\{{", whole, maxsplit=1, flags=re.M)
        if len(parts) == 2:
            head, body = parts
        elif whole.split("\n")[0].rstrip().endswith("{"):
            head, body = whole.split("\n")[0], "\n".join(whole.split("\n")[1:])
        else:
            head, body = whole, ""
        yield m.group(2), text[: m.start()].count("\n") + 1, head, body


def shape(body):
    """A body with every name, number and text made alike."""
    tokens = re.findall(r"[A-Za-z_]\w*|\d\w*|'[^']*'|\"[^\"]*\"|[^\s\w]", re.sub(r"//.*", "", body))
    keep = {"match", "if", "else", "for", "in", "while", "let", "return", "mut", "Ok", "Err", "Some", "None", "self"}
    return " ".join(t if t in keep or not re.match(r"[\w'\"]", t) else "_" for t in tokens)


def points(commit):
    found = defaultdict(list)
    shapes = defaultdict(list)
    clauses = defaultdict(list)
    travel = defaultdict(list)
    for name, text in sources(commit):
        code = without_clauses(text)
        lines = code.split("\n")

        def note(point, line, what):
            found[point].append(f"{name}:{line}: {what}")

        for k, line in enumerate(lines, 1):
            s = line.strip()
            # 1: numbers for kinds or refusals, own Option or Result, flags
            if re.search(r"\b(number|letter|kind|code)\w*: &?u8\b|-> (Option<)?u8\b", s) or re.search(r"Result<[^<>]*, (u8|u16|u32|u64|usize|bool)>", s):
                note(1, k, s)
            elif re.search(r"fn .*&mut .*-> bool", s) or re.search(r"-> (Result<)?Option<(Reply|Refusal|\w*Error)>", s):
                note(1, k, s)
            elif re.match(r"(Nothing|No[A-Z]\w*|Missing|Failed|Unread)( \{.*\}|\(.*\))?,$", s):
                note(1, k, s)
            # 3: loops
            m = re.match(r"(?:'\w+: )?for (.*) in (.*) \{$", s)
            if m:
                rest = "\n".join(lines[k : k + 12])
                index = re.match(r"[(&]*(?:mut )?(\w+)", m.group(1)).group(1)
                if ".." in m.group(2) and re.search(rf"\[{index}\b|\b{index}\]", rest):
                    note(3, k, s)
                elif "enumerate" in m.group(2) and re.search(rf"\[{index}\]", rest):
                    note(3, k, s)
                elif ".." in m.group(2) and "[" not in m.group(2) and "_tests/" not in name:
                    note(3, k, s)
            elif re.match(r"(?:'\w+: )?(while|loop)\b", s):
                note(3, k, s)
            # 4: equality, order, copying, conversion, printing by hand
            if re.search(r"impl(<.*>)? (PartialEq|Eq|PartialOrd|Ord|Clone|Copy|Debug|Hash|Default)\b.* for", s):
                note(4, k, s)
            elif re.search(r"fn (same|equals?|cmp|compare|copy|to_\w+|as_\w+|from_\w+|\w+_number|\w+_byte|kind_of|(sum|worst)_row)\b", s):
                note(4, k, s)
            elif re.match(r"(Err\([a-z_]\w*\) => |Ok\(\w*\) => Ok\()", s) and "_tests/" not in name:
                note(4, k, s)
            # 6: a buffer with a length beside, an array indexed in steps
            if re.search(r"\b(places|rows|len|length|count): usize,? .*: &?\w*(Letters|Columns|\[)", s) or re.search(r"\[\d+ \* ", s):
                note(6, k, s)
            elif re.match(r"(pub )?(places|rows|len|length|count): usize,$", s) and any(
                re.search(r": (Columns|Letters|\[|u64)", l) for l in lines[max(0, k - 4) : k + 4] if l != line
            ):
                note(6, k, s)
            # 7: a switch on the step to run, a table of functions
            if re.search(r"match (self\.)?(stage|kind|step|mode|state)\b", s) or re.search(r"\bfn\(|dyn ", s):
                note(7, k, s)
        for fn, line, head, body in functions(text):
            if len(shape(body).split()) >= 10:
                shapes[shape(body)].append(f"{name}:{line}: {fn}")
            signature = re.sub(r"\n\s*(requires|ensures)[\s\S]*", "", head)
            arguments = re.findall(r"(\w+): ", re.sub(r"<.*?>", "", signature))
            call = re.match(r"(?:self\.|\w+::)?(\w+)\((.*)\)$", re.sub(r"//.*|\s+", "", body).strip("{}"))
            if call and call.group(2).split(",") == (arguments or [""]):
                found[2].append(f"{name}:{line}: {fn} only passes on to {call.group(1)}")
            for c in re.findall(r"(?:requires|ensures)(?: \w+)? \{ (.*) \}$", head, re.M):
                for part in re.split(r" × ", c):
                    clauses[part.strip("() ")].append(f"{name}:{line}: {fn}")
            params = [] if fn == "fmt" else re.findall(r"(\w+): (&?(?:mut )?\w[\w<>]*|&?\[\w+\])", re.sub(r"fn \w+<.*?>\(", "fn(", signature))
            for a in range(len(params)):
                for b in range(a + 1, len(params)):
                    travel[(params[a], params[b])].append(f"{name}:{line}: {fn}")
    for fns in shapes.values():
        if len(fns) > 1:
            found[2].append(" = ".join(fns))
    for clause, fns in clauses.items():
        if len(set(fns)) >= 3:
            found[5].append(f"{{ {clause} }}: " + ", ".join(fns))
    for (a, b), fns in travel.items():
        if len(fns) >= 3:
            found[5].append(f"({a[0]}: {a[1]}, {b[0]}: {b[1]}): " + ", ".join(fns))
    return found


def proofs(commit):
    if commit:
        names = subprocess.check_output(["git", "ls-tree", "-r", "--name-only", commit, "crates"], text=True).split("\n")
        read = lambda n: subprocess.check_output(["git", "show", f"{commit}:{n}"], text=True)
    else:
        names = subprocess.check_output(["git", "ls-files", "-co", "--exclude-standard", "crates"], text=True).split("\n")
        read = lambda n: open(n).read()
    answers = [n for n in names if n.endswith("/Answers.antt")]
    lemmas = [n for n in names if re.match(r"crates/\w+/proofs/\w+\.antt$", n)]
    goals = sum(len(re.findall(r"^pub [\w-]+ : goal\.", read(n), re.M)) for n in answers)
    count = sum(len(re.findall(r"^(?:abbrev |unfoldable )?(?:pub )?[\w'-]+ :", read(n), re.M)) for n in lemmas)
    lines = sum(read(n).count("\n") for n in lemmas)
    return f"{goals} answers in {len(answers)} files, {count} definitions and lemmas in {lines} lines of proofs/*.antt"


NAMES = {
    1: "numbers for kinds or refusals, flags, own Option or Result",
    2: "functions whose bodies are alike but for names and numbers",
    3: "loops that count, and while",
    4: "comparison, conversion and printing by hand",
    5: "clauses of three functions or more, parameters that travel together",
    6: "a buffer with a length beside, indices in steps",
    7: "a switch on the step to run, tables of functions",
}

commit = sys.argv[1] if len(sys.argv) > 1 else None
found = points(commit)
for point, what in NAMES.items():
    print(f"{point}. {what}: {len(found[point])}")
    for place in found[point]:
        print("   ", place)
print("8. proofs:", proofs(commit))
