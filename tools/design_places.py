#!/usr/bin/env python3
"""Lists the candidates for docs/DESIGN-PASS.md in crates/*/src: design_places.py [POINT]; with no point, the counts alone."""
import collections
import pathlib
import re
import sys

# What each point's candidates look like, a line at a time.
PATTERNS = {
    1: [
        r"^\s*(pub(\(crate\))? )?enum ",
        r": bool,$",
        r"-> \(.*\bbool\b.*\)",
        r"Result<[^<>]*, u8>|\(u8\),$|u8, Reading",
        r"\bNone => (None|return None|Err)|Err\(\w+\) => (return )?Err\(|Ok\(\(\)\) => (Ok|x)|\bis_err\(\)|None => return ",
        r"^\s*let (Ok|Some)\(.*\) = .* else",
        r"^\s*Err\(_?(error|refusal|fault|e)\) =>",
    ],
    2: [r"^impl.* for ", r"^\s*(pub(\(crate\))? )?fn \w*(side|uniform|random_|empty|zeroed|draw|paint|_of\b)\w*"],
    3: [r"^\s*for .* in .*\.\.", r"^\s*while ", r"enumerate\(\)", r"^\s*for \w+ in &?\w+ \{$"],
    4: [
        r"fn (number|what|answer|letter|print\w*|digit|pair|blit|tile|transform|eq|cmp|clone|fmt)\b",
        r"println!\(rt; .*\{",
        r"256 \*|65536 \*|% 256\) as u8|/ 256\) as u8",
    ],
    6: [r": \[\w+; \d+\],$", r": Vec<", r"_len\b|count: |size: usize"],
    7: [r"\bbool\b.*\)? ?(->|,|\))", r"^\s*if (spaces|half|negative)\b", r"\bdyn |impl Fn|fn\("],
}


def functions(text):
    """Each function's parameters and clauses."""
    for found in re.finditer(r"fn (\w+)[^{;]*?\((.*?)\)([^{;]*(?:\{[^{}]*\}[^{;]*)*?)\n?\s*[{;]", text, re.S):
        parameters = [p.split(":")[0].strip() for p in found[2].split(",") if ":" in p]
        yield found[1], parameters


def clauses(text):
    """The facts of the clauses of a file."""
    return re.findall(r"^\s*(?:requires|ensures)(?: \w+)? \{ (.*) \};?$", text, re.M)


def sources():
    return sorted(pathlib.Path("crates").glob("*/src/**/*.rt"))


def by_pattern(point):
    for path in sources():
        for number, line in enumerate(path.read_text().splitlines(), 1):
            if any(re.search(p, line) for p in PATTERNS[point]):
                yield f"{path}:{number}: {line.strip()}"


def travelling():
    """Pairs of parameters that three or more functions of a crate have, and facts that three or more clauses state."""
    pairs = collections.defaultdict(list)
    facts = collections.defaultdict(list)
    for path in sources():
        text = path.read_text()
        for name, parameters in functions(text):
            for i, one in enumerate(parameters):
                for other in parameters[i + 1 :]:
                    pairs[path.parts[1], one, other].append(name)
        for clause in clauses(text):
            for fact in re.findall(r"[\w.]+ ≡ [^≡]*|[\w ]+ [<≤] [\w ^]+|\((?:[^()]|\([^()]*\))+\)", clause):
                facts[path.parts[1], fact.strip()].append(path.name)
    for (crate, one, other), names in sorted(pairs.items()):
        if len(names) >= 3:
            yield f"{crate}: parameters {one}, {other}: {', '.join(names)}"
    for (crate, fact), names in sorted(facts.items()):
        if len(names) >= 3:
            yield f"{crate}: fact {fact}: {len(names)} clauses"


def proofs():
    for path in sorted(pathlib.Path("crates").glob("*/proofs/**/*.antt")):
        text = path.read_text()
        if path.name in ("Answers.antt", "Invariants.antt"):
            for name in re.findall(r"^(?:abbrev )?pub ([\w\-+]+) : goal\.", text, re.M):
                yield f"{path}: {name}"
        elif path.name != "Lib.antt":
            for name in re.findall(r"^ *(?:pub )?([\w\-']+) : ", text, re.M):
                yield f"{path}: lemma {name}"


def places(point):
    if point == 5:
        return list(travelling())
    if point == 8:
        return list(proofs())
    return list(by_pattern(point))


def main():
    if len(sys.argv) > 1:
        print("\n".join(places(int(sys.argv[1]))))
        return
    for point in range(1, 9):
        print(f"point {point}: {len(places(point))} candidates")


main()
