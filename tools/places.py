"""Where src/ still has an older form: counts the places of each point of docs/DESIGN-PASS.md, file by file.

    python3 tools/places.py [FOLDER] [--list]

FOLDER is a checkout (here where none is named). Twins are functions whose bodies are alike once names and numbers are left out.
"""
import difflib
import glob
import os
import re
import sys

LINES = {
    "1a enums of the shape of Option or Result": r"^    (Wrong|Bad|Lost|Over|Nothing|Accepted|Refused)\b.*,?$",
    "1b a flag or an own Option beside a value": r"^ +(pub(\(crate\))? )?\w+: (Spot|bool),$",
    "1c a refusal told by its number": r"\bnumber\(\w+\) (!=|==) 0",
    "1d a number that stands for none": r"//.*(where (there is )?none|where no(thing| |r)|\b\d+ where|past the (end|last)|number where none|and 10 when)",
    "1e a number for a kind": r"\bkind (==|<) \d|/ 16777216|\bkind: u32",
    "3a while over an index": r"^ *('\w+: )?while \w+ < [\w.()]+",
    "3b for over an index of a list": r"^ *('\w+: )?for \w+ in 0\.\.[\w.()]*len\(\)",
    "3c for over an index of a table": r"^ *('\w+: )?for \w+ in 0\.\.(?![\w.()]*len\(\))",
    "3d loop": r"^ *('\w+: )?loop \{",
    "3e while, another": r"^ *('\w+: )?while (?!\w+ < )",
    "4 copied, compared, ordered or converted by hand": r"^ *(pub(\(crate\))? )?fn (later|at_most|members|more|is_same|is_wrong|is_bad|number|place|store_records|replay|copy|read|with_row|entry|slot|borne_on|neighbours|layer_of|number_at|as_count|island_of|first|front)\b",
    "6 a length beside a buffer": r"^ *(pub(\(crate\))? )?(len|count|bytes): usize,$|let (mut )?(len|bytes)\b.*= ",
    "7 a switch on which way to go": r"\b(mirrored|gates|alone|sure|whole|minus): bool\b",
}


# Parameters that travel together.
TOGETHER = {
    "5a columns, angles, list laid and place in it": ["cols", "angles", "out", "at"],
    "5b neighbours, set, asked rows and mirror rows": ["near", "set", "asked", "mirror"],
    "5c neighbours, orders, their lengths and set": ["near", "order", "len", "set"],
    "5d qubits, couplers and gates": ["n", "couplers", "gates"],
    "5e a list to be written and a place in it": ["text", "at", "text: &mut"],
    "5f a text that is read and a place in it": ["text", "from", "text: &["],
}

# Facts in the `requires` of three functions or more.
FACTS = [r"v < most_qubits", r"choice\.qubit < most_qubits", r"n ≤ most_moves", r"n ≤ most_qubits", r"AllOrderly near"]


def sources(folder):
    return sorted(glob.glob(os.path.join(folder, "crates/*/src/*.rt")))


def functions(path):
    """Each function of a file: its line, its name, and its body's tokens with names and numbers left out."""
    lines = open(path).read().split("\n")
    at = 0
    while at < len(lines):
        head = re.match(r"^( *)(pub(\(crate\))? )?(const )?fn (\w+)", lines[at])
        if not head:
            at += 1
            continue
        indent, name, start = head.group(1), head.group(5), at
        body = []
        while at < len(lines) and lines[at] != indent + "{" and not lines[at].endswith(" {"):
            at += 1
        at += 1
        while at < len(lines) and lines[at] != indent + "}":
            body.append(re.sub(r"//.*", "", lines[at]))
            at += 1
        text = " ".join(body)
        tokens = re.findall(r"[A-Za-z_]\w*|\d+|b?'[^']*'|b?\"[^\"]*\"|[^\s\w]", text)
        keep = {"if", "else", "for", "in", "while", "loop", "match", "return", "let", "mut", "as", "break", "self"}
        yield start + 1, name, [t if t in keep or not re.match(r"[\w'\"]", t) else "x" for t in tokens]
        at += 1


def signatures(folder):
    for path in sources(folder):
        for found in re.finditer(r"fn (\w+)(<[^>]*>)?\(([^)]*)\)", open(path).read()):
            yield os.path.relpath(path, folder), found.group(1), found.group(3)


def travelling(folder, words):
    """The functions whose parameters have these names, and this text where one of the words has a colon."""
    names = [w for w in words if ":" not in w]
    texts = [w for w in words if ":" in w]
    for path, name, parameters in signatures(folder):
        has = {p.split(":")[0].strip() for p in parameters.split(",") if ":" in p}
        if has.issuperset(names) and all(t in parameters for t in texts):
            yield path, name


def twins(folder):
    found = []
    for path in sources(folder):
        for line, name, tokens in functions(path):
            if len(tokens) >= 25:
                found.append((os.path.relpath(path, folder), line, name, tokens))
    pairs = []
    for i, one in enumerate(found):
        for other in found[i + 1:]:
            if abs(len(one[3]) - len(other[3])) > 0.1 * max(len(one[3]), len(other[3])):
                continue
            match = difflib.SequenceMatcher(None, one[3], other[3], autojunk=False)
            if match.quick_ratio() >= 0.93 and match.ratio() >= 0.93:
                pairs.append((one, other))
    return pairs


def main():
    named = [a for a in sys.argv[1:] if not a.startswith("--")]
    folder = named[0] if named else "."
    for what, pattern in LINES.items():
        hits = []
        for path in sources(folder):
            for k, line in enumerate(open(path).read().split("\n"), 1):
                if re.search(pattern, line):
                    hits.append((os.path.relpath(path, folder), k, line.strip()))
        print(f"{what}: {len(hits)}")
        if "--list" in sys.argv:
            for path, k, line in hits:
                print(f"    {path}:{k}: {line}")
    for what, words in TOGETHER.items():
        hits = list(travelling(folder, words))
        print(f"{what}: {len(hits)}")
        if "--list" in sys.argv:
            for path, name in hits:
                print(f"    {path}: {name}")
    for fact in FACTS:
        hits = [p for p in sources(folder) for line in open(p).read().split("\n") if "requires" in line and re.search(fact, line)]
        print(f"5g a fact asked, {fact}: {len(hits)}")
    answers = glob.glob(os.path.join(folder, "crates/*/proofs/**/Answers.antt"), recursive=True)
    count = sum(len(re.findall(r"(?m)^pub [\w-]+ : ", open(p).read())) for p in answers)
    print(f"8 answers of goals: {count}, in {len(answers)} files")
    pairs = twins(folder)
    print(f"2 twins, pairs: {len(pairs)}")
    if "--list" in sys.argv:
        for one, other in pairs:
            print(f"    {one[0]}:{one[1]}: {one[2]} ~ {other[0]}:{other[1]}: {other[2]}")


main()
