#!/usr/bin/env python3
"""Counts the places in src/ that docs/DESIGN-PASS.md speaks of, point by point: tools/count_places.py [-v] [COMMIT]

It reads the tree as it stands, or as it stood at COMMIT. With -v it names each place."""
import itertools, re, subprocess, sys
from collections import defaultdict

words = [a for a in sys.argv[1:] if a != "-v"]
verbose = "-v" in sys.argv[1:]


def git(*args):
    return subprocess.run(["git", *args], capture_output=True, text=True, check=True).stdout


def files(suffix):
    if words:
        names = git("ls-tree", "-r", "--name-only", words[0], "crates").split()
        return {n: git("show", f"{words[0]}:{n}") for n in names if n.endswith(suffix)}
    names = git("ls-files", "-co", "--exclude-standard", "crates").split()
    return {n: open(n).read() for n in names if n.endswith(suffix)}


def without_tests(text):
    return re.split(r"\n#\[cfg\(test\)\]\nmod tests \{", text)[0]


src = {n: without_tests(t) for n, t in files(".rt").items() if "/src/" in n and not n.endswith("tests.rt")}
proofs = {n: t for n, t in files(".antt").items() if "/proofs/" in n}


def lines(pattern):
    found = []
    for name, text in sorted(src.items()):
        for number, line in enumerate(text.split("\n"), 1):
            if re.search(pattern, line) and not line.lstrip().startswith("//"):
                found.append(f"{name}:{number}: {line.strip()}")
    return found


# Each function: its file, its name, its parameters, its clauses and its body, as text.
functions, heads = [], []
HEAD = re.compile(r"^( *)(?:pub(?:\([a-z]+\))? )?(?:extern \"C\" )?fn (\w+)(?:<.*?>)?\(", re.M)
for name, text in sorted(src.items()):
    for m in HEAD.finditer(text):
        depth, i = 1, m.end()
        while depth:
            depth += {"(": 1, ")": -1}.get(text[i], 0)
            i += 1
        parameters = [p.strip() for p in re.split(r",(?![^(<]*[)>])", text[m.end():i - 1]) if p.strip()]
        end = re.compile(rf"^{m.group(1)}}}$|;$", re.M).search(text, i)
        rest = text[i:end.end() if end else len(text)]
        clauses = [c.strip() for c in re.findall(r"^\s+(?:requires|ensures) (?:\w+ )?\{(.*)\}$", rest, re.M)]
        body = "\n".join(x for x in rest.split("\n") if not re.match(r"\s+(requires|ensures)\b", x))
        functions.append((name, m.group(2), parameters, clauses, body))
        heads.append((name, m.group(2), m.group(1) == ""))


def two_cases():
    """Enums of two variants, with a value in one of them at least."""
    found = []
    for name, text in sorted(src.items()):
        for enum, body in re.findall(r"enum (\w+) \{\n(.*?)\n\}", text, re.S):
            variants = [x.strip() for x in body.split("\n") if re.match(r"    [A-Z]", x)]
            if len(variants) == 2 and any(re.search(r"[({]", v) for v in variants):
                found.append(f"{name}: {enum}")
    return found


def twins():
    """Bodies of two lines or more that are one text once numbers, types of numbers and own names are blanked."""
    groups = defaultdict(list)
    for name, fn, _, _, body in functions:
        own = re.sub(r"\b(u8|u16|u32|u64|u128|usize)\b", "T", body)
        own = re.sub(r"\b0?[xob]?[0-9_]+\b", "N", own)
        own = re.sub(r"\b[A-Z][A-Z0-9_]+\b", "N", own)
        own = re.sub(r"\b(\w+?)(_field|_fields|_word|_pair)(s?)(_left|_right)?\b", "F", own)
        own = re.sub(r"\b(word|pair|fields?|base|bits)\b", "x", own)
        if "{" in own and len([x for x in own.split("\n") if x.strip()]) > 3:
            groups[re.sub(r"\s+", "", own)].append(f"{name}: {fn}")
    return [" = ".join(g) for g in groups.values() if len(g) > 1]


def same_names():
    """Functions, outside of any impl, of one name in several crates."""
    groups = defaultdict(set)
    for name, fn, is_free in heads:
        if is_free:
            groups[fn].add(name.split("/")[1])
    return [f"{fn}: {', '.join(sorted(c))}" for fn, c in sorted(groups.items()) if len(c) > 1]


def same_constants():
    groups = defaultdict(set)
    for name, text in src.items():
        for constant, value in re.findall(r"const (\w+): \w+ = (.*);", text):
            value = value.replace("_", "")
            if re.search(r"\d", value) and len(value) > 1:
                groups[value].add(f"{name}: {constant}")
    return [", ".join(sorted(g)) for g in groups.values() if len(g) > 1]


def clauses():
    """Clauses that stand, but for the names of the values, in three contracts or more."""
    groups = defaultdict(set)
    for name, fn, _, clause, _ in functions:
        for c in clause:
            groups[re.sub(r"\b(self|result|core|given|numbers)\b", "_", c)].add(f"{name}: {fn}")
    return [f"{len(g)} x {c}" for c, g in sorted(groups.items(), key=lambda x: -len(x[1])) if len(g) >= 3]


def travellers():
    """Parameters of one name and type that stand together in three functions or more."""
    groups = defaultdict(set)
    for name, fn, parameters, _, _ in functions:
        own = sorted(p.replace("mut ", "").replace("&", "") for p in parameters if ":" in p)
        for pair in itertools.combinations(own, 2):
            groups[pair].add(f"{name}: {fn}")
    return [f"{len(g)} x {', '.join(p)}" for p, g in sorted(groups.items(), key=lambda x: -len(x[1])) if len(g) >= 3]


REPORT = [
    ("1  enums of two cases that hold a value", two_cases()),
    ("1  a bool beside a value", lines(r"(u64|u128|Status|WordPair|Self), bool\b|bool, (u64|u128)")),
    ("1  a number that stands for a kind", lines(r"\btable: u64|Boolean\(u64")),
    ("1  a number given for a refusal", lines(r"-> u32\b")),
    ("2  bodies that are one but for numbers, types and names", twins()),
    ("2  free functions of one name in several crates", same_names()),
    ("2  constants of one value with several homes", same_constants()),
    ("3  loops over an index or a count", lines(r"^\s*(let \w+ = )?(while |loop \{|for .* in .*\.\.)")),
    ("3  loops over items that a chain may say", lines(r"^\s*for (?!.*\.\.)")),
    ("4  matches that make a kind of a number", lines(r"\bmatch .*[%/] \d+")),
    ("4  functions that convert", lines(r"fn (\w+_of|number|text|\w+_name)\(\w+: (u8|u64|Stop|Self)|fn (number|text|word)\(self")),
    ("4  arms that a method of Option, Result or bool says",
     lines(r"Err\(_\) =>|None => (Ok|Err|None|status)|Err\((\w+)\) => Err|Ok\((\w*)\) => Ok|Some\(\w+\) => Err|\{ None \} else|else \{ CORE_LIMIT|\{ m \} else")),
    ("4  types without the common derives", lines(r"#\[derive\((Clone, Copy|Drop)\)\]")),
    ("5  clauses in three contracts or more", clauses()),
    ("5  parameters together in three functions or more", travellers()),
    ("6  lengths that a clause fixes", lines(r"length \w+\.(now|old) ≡ [0-9]+")),
    ("6  elements taken by a computed index", lines(r"\[\d \* \w+( \+ \d)?(\.\.|\])|\[\w+ \+ \d\]")),
    ("7  arms that name the function to call", lines(r"=> (\w+_effect|\w+_of|monitor_call|not_installed|user_call|block_transfer|perform)\(")),
    ("7  closures, function pointers, dyn", lines(r"\bdyn |\bfn\(|impl Fn|: Fn|\|\w+\| ")),
]
for title, found in REPORT:
    print(f"{title}: {len(found)}")
    if verbose:
        for place in found:
            print("    " + place)
answers = sum(len(re.findall(r" : goal\.", t)) for t in proofs.values())
print(f"8  answers: {answers}; lines of proofs/: {sum(t.count(chr(10)) for t in proofs.values())}")
