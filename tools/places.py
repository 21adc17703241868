#!/usr/bin/env python3
"""Lists the places in crates/*/src that the newer forms of Rattle could say better.

  python3 tools/places.py [POINT]     at the top of the repository; POINT is 1 to 8

A hit is a candidate: a line that has the look of an older form. Each is read before it is changed or kept
(docs/DESIGN-PASS.md tells what became of each). Tests are looked at as well, but for point 2.
"""
import difflib
import glob
import re
import sys

FUNCTION = re.compile(r"^( *)(?:pub(?:\([a-z]+\))? )?(?:final )?fn (\w+)", re.M)


def sources():
    for path in sorted(glob.glob("crates/*/src/**/*.rt", recursive=True)):
        with open(path) as file:
            yield path, file.read()


def functions():
    """Each function: path, name, head (with its clauses) and body."""
    for path, text in sources():
        lines = text.split("\n")
        i = 0
        while i < len(lines):
            found = FUNCTION.match(lines[i])
            if not found:
                i += 1
                continue
            indent, name = found.group(1), found.group(2)
            end = i
            while end < len(lines) and not re.match(indent + r"\}|.*;$|.*\{.*\}$", lines[end]):
                end += 1
            block = lines[i : end + 1]
            if lines[end].endswith(";") and not any(l.rstrip() == indent + "{" for l in block):
                yield path, name, block, []
                i = end + 1
                continue
            while end < len(lines) and lines[end] != indent + "}":
                end += 1
            block = lines[i : end + 1]
            opened = next((k for k, l in enumerate(block) if l == indent + "{" or l.endswith("{") and k == 0), 0)
            yield path, name, block[: opened + 1], block[opened + 1 : -1]
            i = end + 1


def lines_with(pattern, skip=()):
    for path, text in sources():
        if any(part in path for part in skip):
            continue
        for number, line in enumerate(text.split("\n"), 1):
            code = line.split("//")[0]
            if re.search(pattern, code) and not re.match(r"\s*(ensures|requires|ghost)", code):
                yield f"{path}:{number}: {line.strip()}"


def point1():
    """A bool that stands for a refusal, a flag beside a value, a number for a kind, Option in Option."""
    yield from lines_with(r"Result<bool|Option<Option<|Result<Option<Vec")
    yield from lines_with(r"=> \d+,|\d+ => |\{ \d+ \} else \{ \d+ \}", ("tests",))
    for path, name, head, body in functions():
        text = "\n".join(body)
        for test in re.finditer(r"if !?[\w.:]+\([^{}]*\) \{\s*(return (?:Err|None)[^;]*;|Err\()", text):
            yield f"{path}: {name}: {' '.join(test.group(0).split())}"
        for test in re.finditer(r"\{\s*(Ok\([^}]*\}) else \{\s*Err\(", text):
            yield f"{path}: {name}: {' '.join(test.group(0).split())}"


def normal(body):
    text = " ".join(" ".join(line.split("//")[0].split()) for line in body)
    text = re.sub(r"\b(u8|u16|u32|u64|usize)\b", "uN", text)
    text = re.sub(r"\b[A-Z][A-Z0-9_]+\b|\b\d+\b", "K", text)
    return text


def point2():
    """Functions whose bodies are alike but for a type, a size, a constant or a name."""
    found = [
        (path, name, " ".join(l.split("//")[0].strip() for l in head[:1]), normal(body))
        for path, name, head, body in functions()
        if body and "tests" not in path and "laws" not in path
    ]
    seen = set()
    for i, (path, name, head, body) in enumerate(found):
        for other_path, other_name, other_head, other_body in found[i + 1 :]:
            if len(body) < 25 or len(other_body) < 25:
                continue
            ratio = difflib.SequenceMatcher(None, body, other_body).ratio()
            if ratio >= 0.82:
                pair = (path, name, other_path, other_name)
                if pair not in seen:
                    seen.add(pair)
                    yield f"{path}: {name} ~ {other_path}: {other_name} ({ratio:.2f})"


def point3():
    """Loops that are not a plain `for` over the items of something."""
    yield from lines_with(r"^\s*(while |loop \{)|for \w+ in [^{]*\.\.|\.enumerate\(\)|for _\w* in")
    for path, name, head, body in functions():
        text = "\n".join(body)
        for loop in re.finditer(r"for [^{}]*? in ([^{}]*?) \{\n([^}]*?)\}", text):
            if ".." in loop.group(1) or ".enumerate()" in loop.group(1):
                continue
            if re.search(r"return (true|false)|\w+ \+= 1|push_reserved\(\*|return \w+;", loop.group(2)):
                yield f"{path}: {name}: {' '.join(loop.group(0).split())[:90]}"
    yield from lines_with(r"if \w+ [<>]=? [\w.]+\.len\(\)|\[\w+\.\.\]|\w+\[\w+\]", ("tests",))


def point4():
    """Comparing, copying, converting and printing by hand."""
    names = r"fn (same_\w+|compare|precedes|copy_from|is_word|wrong|refuse|\w+_of|\w+_code|push_(name|flags|head|import)|row_text|is_bare)\("
    yield from lines_with(names, ("tests",))
    yield from lines_with(r"matches!\(", ("tests",))
    yield from lines_with(r" as (u8|u16|u32|u64|usize)\b", ("tests",))


def clause(line):
    found = re.match(r"\s*(?:requires|ensures)\*? ?(\w*) ?\{ (.*) \}[;,]?$", line)
    if not found:
        return None
    return re.sub(r"\b(self|store|places|marks|scratch|bytes|v|spare|result|change|row|tablet)\b", "_", found.group(2))


def point5():
    """Clauses that stand in three contracts or more, and parameters that travel together in three or more."""
    clauses, groups = {}, {}
    for path, name, head, body in functions():
        text = " ".join(head)
        for line in head:
            said = clause(line)
            if said and not re.match(r"_ ≡|IfOk|Reads|taken _", said):
                clauses.setdefault(said, set()).add(f"{path}:{name}")
        inside = re.search(r"fn \w+(?:<[^(]*>)?\((.*?)\)(?: ->|$| requires| ensures| \{)", text)
        if inside:
            parameters = [p.strip() for p in inside.group(1).split(",") if ":" in p]
            parameters = [re.sub(r"\s+", " ", p.replace("mut ", "").replace("'a ", "")) for p in parameters]
            for i, one in enumerate(parameters):
                for other in parameters[i + 1 :]:
                    groups.setdefault((one, other), set()).add(f"{path}:{name}")
    for said, places in sorted(clauses.items(), key=lambda c: -len(c[1])):
        if len(places) >= 3:
            yield f"clause in {len(places)}: {said[:110]}"
    for pair, places in sorted(groups.items(), key=lambda c: -len(c[1])):
        if len(places) >= 3:
            yield f"parameters in {len(places)}: {pair[0]}, {pair[1]}"


def point6():
    """A buffer and a place or a length beside it, a search by halves, fields that are copied one by one."""
    yield from lines_with(r"let mut (low|high) = |let mid = ")
    yield from lines_with(r"buffer: &mut \[u8\], (place|at): usize")
    yield from lines_with(r"^\s*(pub )?(count|most|len): (u16|usize),|offset: usize,")
    yield from lines_with(r"places: Vec<|marks: Vec<|let (stable_)?id_start|let stable_start")


def point7():
    """A chain of tests that chooses a step."""
    yield from lines_with(r"else if (is_word|let Some)|^\s*if (is_word|let Some\(to\))")


def point8():
    """Lines of proofs, crate by crate."""
    for crate in sorted(glob.glob("crates/*")):
        files = glob.glob(f"{crate}/proofs/**/*.antt", recursive=True)
        if files:
            lines = sum(len(open(f).read().split("\n")) - 1 for f in files)
            yield f"{crate}: {len(files)} files, {lines} lines"


def main():
    points = [point1, point2, point3, point4, point5, point6, point7, point8]
    wanted = [int(word) for word in sys.argv[1:]] or range(1, 9)
    for number in wanted:
        hits = list(points[number - 1]())
        print(f"point {number}: {len(hits)}  {points[number - 1].__doc__}")
        if len(sys.argv) > 1:
            for hit in hits:
                print("  " + hit)


main()
