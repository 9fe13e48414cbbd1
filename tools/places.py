#!/usr/bin/env python3
"""Counts places in crates/*/src that an older form of the language may have left behind, by text alone: a place that is found is one to look at, and a form that no pattern
knows is found by reading only. docs/DESIGN-PASS.md has what was found and what became of it.

usage: tools/places.py [--list] [FOLDER]      in FOLDER, the top of a checkout (this one, if left out); --list names each place
"""
import difflib
import re
import sys
from collections import defaultdict
from pathlib import Path

TOKEN = re.compile(r"[A-Za-z_]\w*|\d[\w.]*|'[a-z]\w*|\S")
WORDS = set(
    "if else match for in while loop let mut return fn pub self Self Some None Ok Err true false as usize u8 u16 u32 u64 u128 bool Option Result".split()
)


def code_of(path):
    """The lines of a file, with comments and ghost imports emptied."""
    lines = []
    for line in path.read_text().split("\n"):
        line = re.sub(r"(^|\s)//.*", "", line)
        lines.append("" if line.startswith("ghost use") else line)
    return lines


def functions_of(lines):
    """Each function: its name, its first line, its parameters, its clauses, and its body."""
    text = "\n".join(lines)
    for found in re.finditer(r"\bfn (\w+)", text):
        start = found.start()
        at = text.index("(", found.end())
        depth, end = 0, at
        while True:
            depth += {"(": 1, ")": -1}.get(text[end], 0)
            end += 1
            if depth == 0:
                break
        parameters = text[at + 1 : end - 1]
        rest = text[end:]
        brace = re.search(r"^ *\{$|\{$|;$|\{ *[^}\n]*\}$", rest, re.M)
        clauses = ""
        if "ensures" in rest[:400] or "requires" in rest[:400]:
            lone = re.search(r"^ *\{$", rest, re.M)
            stop = re.search(r";$", rest, re.M)
            if lone and (not stop or lone.start() < stop.start()):
                clauses, brace = rest[: lone.start()], lone
        if not brace or rest[brace.start() : brace.end()].strip() == ";":
            yield found.group(1), text.count("\n", 0, start) + 1, parameters, clauses, ""
            continue
        open_at = rest.index("{", brace.start())
        depth, i = 0, open_at
        while i < len(rest):
            depth += {"{": 1, "}": -1}.get(rest[i], 0)
            i += 1
            if depth == 0:
                break
        yield found.group(1), text.count("\n", 0, start) + 1, parameters, clauses, rest[open_at:i]


def shape(body):
    """The body's tokens, with one word for every name and one for every number."""
    out = []
    for token in TOKEN.findall(body):
        if re.match(r"\d", token):
            out.append("0")
        elif re.match(r"[A-Za-z_']", token) and token not in WORDS:
            out.append("x")
        else:
            out.append(token)
    return out


PATTERNS = {
    "1a an answer taken apart and wrapped again": r"\b(Ok|Some)\((\w+|\(\))\) => (return )?(Ok|Some)\(|\bErr\((\w+)\) => (return )?(Ok\()?Err\(|\bNone => (return )?(None|Err\()|\b(Ok|Some)\(_\) => (return )?(Ok|Some)\(",
    "1b a number for an error or a kind, a Result in a Result": r"Result<[^<>]*, (u8|u16|u32|u64|usize)>|Result<Result<|\b(arbiter|code|kind): u\d+\b",
    "1c an enum of its own (each to be looked at)": r"^\s*(pub(\(crate\))? )?enum \w+",
    "3a a loop by while": r"^\s*('\w+: )?while (?!let )",
    "3b a loop over numbers": r"^\s*('\w+: )?for \w+ in [^{]*\.\.",
    "4a text, equality or conversion by hand": r"\bfn (sentence|name|\w+_name|tell|to_\w+|from_\w+|as_\w+|number|byte|code|\w+_kind|kind_of|departure_of|whole|read_two|read_four)\b|as u8 ==",
    "4b bytes copied one by one or by copy_from_slice": r"\w\[\d\] = |copy_from_slice|\[\w+\[0\], \w+\[1\]",
}


def main():
    words = [w for w in sys.argv[1:] if w != "--list"]
    listed = "--list" in sys.argv
    top = Path(words[0]) if words else Path(__file__).resolve().parent.parent
    found = defaultdict(list)
    bodies, facts, groups = [], defaultdict(set), defaultdict(set)
    for path in sorted(top.glob("crates/*/src/**/*.rt")):
        name = str(path.relative_to(top))
        lines = code_of(path)
        for number, line in enumerate(lines, 1):
            for kind, pattern in PATTERNS.items():
                for match in re.finditer(pattern, line):
                    found[kind].append((f"{name}:{number}", line.strip()))
        text = "\n".join(lines)
        for struct in re.finditer(r"struct (\w+)[^{;(]*\{(.*?)^\}", text, re.S | re.M):
            fields = re.findall(r"^\s*(?:pub(?:\(crate\))? )?(\w+): ([^\n]+),", struct.group(2), re.M)
            arrays = [f for f, t in fields if t.startswith("[")]
            lengths = [f for f, t in fields if re.search(r"^(len|length|count|counts)$", f)]
            if arrays and lengths or len(arrays) > 2:
                found["6 an array and a length, or arrays side by side"].append(
                    (f"{name}: {struct.group(1)}", ", ".join(dict.fromkeys(arrays + lengths)))
                )
        for function, number, parameters, clauses, body in functions_of(lines):
            place = f"{name}:{number} {function}"
            tokens = shape(body)
            if len(tokens) > 24:
                bodies.append((place, tokens))
            for requires in re.findall(r"requires[^{]*\{(.*)\}", clauses):
                for fact in re.split(r"×", requires):
                    facts[re.sub(r"[()\s]|\.old|\.now", "", fact)].add(place)
            names = sorted(set(re.findall(r"(\w+): ", parameters)))
            for i, a in enumerate(names):
                for j in range(i + 1, len(names)):
                    for k in range(j + 1, len(names)):
                        groups[(a, names[j], names[k])].add(place)
        for arms in re.finditer(r"match [^{]*\{(.*?)\n\s*\}", text, re.S):
            calls = re.findall(r"^\s*[A-Z]\w*::(\w+)\((\w+)\) => (?:\w+\.)?(\w+)\(", arms.group(1), re.M)
            same = [c for _, _, c in calls]
            if len(same) > 1 and len(set(same)) == 1:
                number = text.count("\n", 0, arms.start()) + 1
                found["7 arms that all make one call"].append((f"{name}:{number}", same[0]))
    for i, (place, tokens) in enumerate(bodies):
        for other, those in bodies[i + 1 :]:
            if max(len(tokens), len(those)) > 1.3 * min(len(tokens), len(those)):
                continue
            matcher = difflib.SequenceMatcher(None, tokens, those, autojunk=False)
            if matcher.quick_ratio() >= 0.9 and matcher.ratio() >= 0.9:
                found["2 two functions of one shape"].append((place, other))
    for fact, places in sorted(facts.items()):
        if len(places) > 2:
            found["5a a fact that three or more functions require"].append((fact, f"{len(places)} functions"))
    taken = []
    for group, places in sorted(groups.items(), key=lambda g: -len(g[1])):
        if len(places) > 2 and not any(places <= t for t in taken):
            taken.append(places)
            found["5b three parameters of one name in three or more functions"].append((" ".join(group), f"{len(places)} functions"))
    for kind in sorted(found):
        print(f"{len(found[kind]):4}  {kind}")
        if listed:
            for place, what in found[kind]:
                print(f"          {place}   {what}")


main()
