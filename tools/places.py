"""Where src/ could be written in a newer form: places by kind, read off the text of each function and type.

    python3 tools/places.py [ROOT] [--list]

Prints a count for each kind; with --list each place too, as crate/file:line name. docs/DESIGN-PASS.md says what the kinds are for."""

import re
import sys
from pathlib import Path

KINDS = [
    ("1a", "enums of which one variant says no: Refused, Failed, Unknown and the like"),
    ("1b", "flags beside a value: a lent `&mut bool`, a `bool` answered beside a lent result, a `bool` field"),
    ("1c", "numbers for kinds, stages, refusals: parameters, results, constants"),
    ("2", "functions and types of which another is a twin, but for names and numbers (same shape of text)"),
    ("3a", "loops that count an index: `for i in a..b`"),
    ("3b", "`while` and `loop`"),
    ("4", "functions that compare, convert, copy or print by hand, by their names"),
    ("5a", "clauses that say what is known of a whole job's data: `Shaped`"),
    ("5b", "functions that take coordinates, predictors and responses one by one"),
    ("5c", "functions that take an easting and a northing one by one"),
    ("6a", "functions that take a buffer and how much of it counts"),
    ("6b", "functions that take two or more lent buffers of one job beside each other: parallel arrays"),
    ("7", "functions that choose by a number what to do: three or more arms"),
    ("8", "answers written in proofs/"),
]

SAY_NO = re.compile(r"\b(Refused|Failed|Rejected|Stopped|Unknown|Nobody|BadDistance)\b")
BY_HAND = re.compile(r"^(same_\w+|\w+_number|\w+_kind|\w+_value|is_own|number|wide|kernel_of|kind_of|chosen_of|kernel_by|criterion_by|own_by|copy_in|put_word|swap_rows|store|load|load_half|both|infinity|abs|max_count|min_count|clamp_count|clamp_unit|is_finite|one_if_below|default_options|read_part)$")
KIND_WORDS = re.compile(r"\b(number|kind|kernel|criterion|want|stage|sort)\s*:\s*(u32|u64|usize)\b")


def functions(text):
    """(line, name, signature, body) of each function; the signature ends at its clauses."""
    for m in re.finditer(r"^( *)(pub )?(extern \"C\" )?(const )?fn (\w+)", text, re.M):
        indent = m.group(1)
        end = text.find("\n" + indent + "}\n", m.end())
        whole = text[m.start() : end if end >= 0 else len(text)]
        cut = re.search(r"\n *(requires|ensures|ghost)\b|\{\n|;\n", whole)
        signature = whole[: cut.start()] if cut else whole
        body_at = whole.find("\n" + indent + "{\n")
        body = whole[body_at:] if body_at >= 0 else whole[len(signature) :]
        yield text.count("\n", 0, m.start()) + 1, m.group(5), signature, body, whole


def enums(text):
    for m in re.finditer(r"^(pub )?enum (\w+)[^{]*\{(.*?)^\}", text, re.M | re.S):
        yield text.count("\n", 0, m.start()) + 1, m.group(2), m.group(3)


def shape(body):
    """The body with names, strings and numbers made alike: twins have one shape."""
    body = re.sub(r"//[^\n]*", "", body)
    body = re.sub(r"[A-Za-z_][A-Za-z_0-9]*|\d[\d_.xA-Fe-]*", "n", body)
    body = re.sub(r"[<>]=?", "<", body)
    return re.sub(r"\s+", "", body)


def places(root):
    found = {k: [] for k, _ in KINDS}
    shapes = {}
    for path in sorted(root.glob("crates/*/src/**/*.rt")):
        text = path.read_text()
        where = str(path.relative_to(root / "crates")).replace("/src/", "/")

        def put(kind, line, name, where=where):
            found[kind].append(f"{where}:{line} {name}")

        for line, name, variants in enums(text):
            if SAY_NO.search(variants) and len(re.findall(r"^\s*\w+", variants, re.M)) <= 4:
                put("1a", line, name)
        for m in re.finditer(r"^ *(pub )?(\w+): bool,$", text, re.M):
            inside = text.rfind("{", 0, m.start())
            if "struct" in text[text.rfind("\n", 0, inside) : inside]:
                put("1b", text.count("\n", 0, m.start()) + 1, m.group(2))
        for m in re.finditer(r"^(pub )?const (\w+): (u32|u64|usize) = (\d+);", text, re.M):
            put("1c", text.count("\n", 0, m.start()) + 1, m.group(2))
        for line, name, signature, body, whole in functions(text):
            if re.search(r"&mut bool", signature) or (re.search(r"-> bool", signature) and "&mut" in signature):
                put("1b", line, name)
            if KIND_WORDS.search(signature) or re.search(r"\brefus|number|answered", name) and re.search(r"-> u(32|64)", signature):
                put("1c", line, name)
            for m in re.finditer(r"\bfor \w+ in [^{\n]*\.\.", body):
                put("3a", line, name)
            for m in re.finditer(r"^\s*(while|loop)\b", body, re.M):
                put("3b", line, name)
            if BY_HAND.search(name):
                put("4", line, name)
            for m in re.finditer(r"\b(requires|ensures)\b[^{]*\{[^}]*\bShaped\b", whole):
                put("5a", line, name)
            if re.search(r"\bcoords: &", signature) and re.search(r"\b(y|responses): &", signature):
                put("5b", line, name)
            if re.search(r"\beast: f64", signature) or re.search(r"\bax: f64", signature):
                put("5c", line, name)
            if re.search(r"&(mut )?\[", signature) and re.search(r"\b(n|m|count|met|len|places|width): (usize|u64)", signature):
                put("6a", line, name)
            if len(re.findall(r"\w+: &mut \[", signature)) >= 2:
                put("6b", line, name)
            arms = len(re.findall(r"^\s*\d+ =>", body, re.M))
            ifs = len(re.findall(r"\bif \w+ == \d+ \{", body))
            if arms >= 2 or ifs >= 2:
                put("7", line, name)
            s = shape(body)
            if len(s) >= 24:
                shapes.setdefault(s, []).append(f"{where}:{line} {name}")
    for path in sorted(root.glob("crates/*/proofs/**/Answers.antt")):
        for m in re.finditer(r"^pub (\S+) : goal\.", path.read_text(), re.M):
            found["8"].append(f"{path.relative_to(root / 'crates')} {m.group(1)}")
    for group in shapes.values():
        if len(group) > 1:
            found["2"].extend(group)
    return found


def main():
    args = [a for a in sys.argv[1:] if not a.startswith("--")]
    root = Path(args[0]) if args else Path(".")
    found = places(root)
    for kind, what in KINDS:
        print(f"{kind:3} {len(found[kind]):4}  {what}")
        if "--list" in sys.argv:
            for place in found[kind]:
                print(f"          {place}")


main()
