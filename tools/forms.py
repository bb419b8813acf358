"""Lists the places of src/ that older forms of the language may stand in, by point of docs/DESIGN-PASS.md.

python3 tools/forms.py [POINT ..]    prints each place as file:line, then how many there are of each kind.
A place is a candidate: the page says which are of the point, and what became of each.
"""
import collections
import pathlib
import re
import sys

TABLES = {"cases.rt", "table.rt"}


def sources():
    for path in sorted(pathlib.Path("crates").glob("*/src/**/*.rt")):
        if path.name in TABLES and "tests" in str(path):
            continue
        yield path, path.read_text().split("\n")


def code(line):
    return line.split("//")[0]


PATTERNS = {
    "1 numbers for kinds": r"const (LINE|SUM|GREATER|ROOT|ENTRY)\b|fn \w*(kind|class_number)\w*\(.*-> u\d+",
    "1 pairs of the shape of Result": r"^    \w+(Refused|OutOfRange)(\(.*\))?,$",
    "1 results handed on by hand": r"Ok\(None\)|Ok\(Err\(|Ok\(Some\(|Err\(\w+\) => (Err|Ok)|None => (Err|None|Ok)|Ok\(_\) => (Err|Ok|Err)",
    "3 counted indices": r"for \w+ in [^{]*\.\.[^{]*\{|\.enumerate\(\)",
    "3 other loops": r"\bwhile\b|\bloop \{",
    "3 loops that build a value": r"let mut \w+(: \w+)? = 0(u\d+)?;",
    "4 casts": r"\bas (u8|u16|u32|u64|u128|usize|i64|char)\b",
    "4 traits by hand": r"^impl.* (PartialEq|Eq|Ord|PartialOrd|Clone|From<.*>|TryFrom<.*>|fmt::Display|fmt::Debug) for ",
    "4 ranges and signs by hand": r"(\w+) == 0 \|\| \1 >|(\w+) < \w+ \|\| \2 >|(\w+) >= \d+ && \3 <=|low <= value|value < 0",
    "4 digits by hand": r"b'0'|b'a'|VALUE_ROOM|>> 28|0x0fff_ffff",
    "6 arrays that are filled": r"\[0(u\d+)?; ",
    "6 rows by index": r"\(usize, usize, ",
    "7 one test for several steps": r"if self\.takes_one",
    "7 functions as values": r"\bdyn \w|fn\(|Box<dyn",
}


def by_pattern(wanted):
    for name, pattern in PATTERNS.items():
        if wanted and name[0] not in wanted:
            continue
        found = [
            f"{path}:{n}: {line.strip()}"
            for path, lines in sources()
            for n, line in enumerate(lines, 1)
            if "ghost use" not in line and re.search(pattern, code(line))
        ]
        yield name, found


def functions():
    """Each function with its header, its clauses and its body."""
    for path, lines in sources():
        n = 0
        while n < len(lines):
            if re.match(r"\s*(pub(\(crate\))? )?fn \w", lines[n]):
                indent = len(lines[n]) - len(lines[n].lstrip())
                end = n
                while end < len(lines) and not (
                    lines[end].rstrip() in (" " * indent + "}", " " * indent + "{}")
                    or (end > n and lines[end].endswith(";") and "{" not in lines[n])
                ):
                    end += 1
                yield path, n + 1, "\n".join(lines[n : end + 1])
                n = end
            n += 1


def name_in(text):
    return re.search(r"fn (\w+)", text)[1]


def shape(text):
    body = "\n".join(
        code(line)
        for line in text.split("\n")
        if not re.match(r"\s*(ensures|requires)\b", line)
    )
    body = re.sub(r'b?"[^"]*"', "S", body)
    body = re.sub(r"\b\d[\d_]*\b|\b0x[\da-f_]+\b", "N", body)
    body = re.sub(r"\bu\d+\b|\busize\b|\bi64\b", "T", body)
    seen = {}
    body = re.sub(
        r"\b[a-zA-Z_]\w*\b",
        lambda m: m[0]
        if m[0] in {"fn", "let", "mut", "if", "else", "for", "in", "match", "return", "self", "Ok", "Err", "Some", "None", "pub", "crate"}
        else seen.setdefault(m[0], f"v{len(seen)}"),
        body,
    )
    return re.sub(r"\s+", " ", body)


def twins():
    shapes = collections.defaultdict(list)
    names = collections.defaultdict(list)
    for path, n, text in functions():
        name = name_in(text)
        if text.count("\n") >= 3:
            shapes[shape(text)].append(f"{path}:{n}: {name}")
        if "&self" not in text.split("\n")[0] and name not in {"new", "main", "fmt", "from"}:
            names[name].append(f"{path}:{n}: {name}")
    for found in shapes.values():
        if len(found) > 1:
            yield "2 functions of one shape", found
    for found in names.values():
        if len({f.split(":")[0].split("/")[1] for f in found}) > 1:
            yield "2 functions of one name in two crates", found


def travelling():
    clauses = collections.defaultdict(list)
    pairs = collections.defaultdict(list)
    for path, n, text in functions():
        crate = path.parts[1]
        place = f"{path}:{n}: {name_in(text)}"
        for m in re.finditer(r"requires (?:\w+ )?\{ (.*) \}", text):
            clauses[crate, m[1]].append(place)
        head = text[: text.index(")")] if ")" in text else text
        given = sorted(set(re.findall(r"(\w+): (&?(?:mut )?(?:'a )?[\w\[\]<>]+)", head)))
        for i, one in enumerate(given):
            for other in given[i + 1 :]:
                pairs[crate, f"{one[0]}: {one[1]}, {other[0]}: {other[1]}"].append(place)
    for (crate, fact), found in clauses.items():
        if len(found) >= 3:
            yield f"5 {crate}: requires {fact}", found
    for (crate, pair), found in pairs.items():
        if len(found) >= 3:
            yield f"5 {crate}: {pair}", found


def proofs():
    for crate in sorted(pathlib.Path("crates").iterdir()):
        answers = sorted(crate.glob("proofs/*/**/*.antt"))
        lemmas = sorted(crate.glob("proofs/*.antt"))
        lines = sum(len(p.read_text().split("\n")) for p in lemmas)
        if answers or len(lemmas) > 1:
            yield f"8 {crate.name}", [str(p) for p in answers] + [f"{lines} lines of lemmas"]


def main():
    wanted = set(sys.argv[1:])
    groups = list(by_pattern(wanted))
    for point, found in (("2", twins), ("5", travelling), ("8", proofs)):
        if not wanted or point in wanted:
            groups += found()
    for name, found in groups:
        print(f"{name}: {len(found)}")
        for place in found:
            print(f"    {place}")


main()
