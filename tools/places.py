"""Lists the places in crates/*/src where code may read plainer, by kind: python3 tools/places.py KIND [FOLDER]

KIND is 1 to 8, as docs/DESIGN-PASS.md numbers them, or all for the counts alone. A line is a place to look at, not a fault.
"""
import difflib
import pathlib
import re
import sys

FUNCTION = re.compile(r"^( *)(?:pub(?:\([a-z]+\))? )?(?:const )?fn ([a-z_0-9]+)", re.M)
LOOSE = re.compile(r"\b(code|kind|depth|operation|rule|register|refusal): u(?:8|16|32)\b")
NOTHING = re.compile(r"^\s+(None|Nothing|Unused|Idle|Malformed|Missing|Empty|Refused|Failed)\b(?!.*=>)", re.M)
LOOP = re.compile(r"\bwhile |\bfor \w+ in [^{]*\.\.|\b\w+ \+= 1\b")
CONVERSION = re.compile(r"^\s*(?:pub(?:\([a-z]+\))? )?fn (eq|ne|cmp|clone|fmt|number|bits|of|digit|\w+_of|of_\w+|\w+_digits|digit_\w+|write_to|two_\w+|four_\w+|entry_of_bytes|done|count|byte|parse|with_half|half_of|bytes)\b", re.M)
BUFFER = re.compile(r"^\s+(?:pub(?:\([a-z]+\))? )?\w+: (?:\[[^\];]+; ?[^\]]+\]|usize)", re.M)
VIEW = re.compile(r"\b([a-z_]+(?: M\.bytes| [A-Z]\.[A-Za-z.]+(?: D\.[A-Za-z.]+)*)?) (?:self|\w+)\.(?:now|old|new)\b")


class Function:
    def __init__(self, path, text, match, end):
        self.path, self.name = path, match.group(2)
        self.line = text.count("\n", 0, match.start()) + 1
        whole = text[match.start():end]
        brace = re.search(r"^%s(?:\{|.*\{$)" % match.group(1), whole[1:], re.M)
        one = whole.split("\n", 1)[0].rstrip()
        cut = len(one) if one.endswith("{") else (brace.start() + 1 if brace else len(whole))
        self.head, self.body = whole[:cut], whole[cut:]
        self.clauses = re.findall(r"(?:requires|ensures)[a-z_* ]*\{(.*)\}", self.head)

    def __str__(self):
        return f"{self.path}:{self.line} {self.name}"


def functions(path, text):
    starts = list(FUNCTION.finditer(text))
    for i, match in enumerate(starts):
        close = re.compile(r"^%s\}" % match.group(1), re.M).search(text, match.end())
        until = starts[i + 1].start() if i + 1 < len(starts) else len(text)
        yield Function(path, text, match, min(close.end() if close else until, until))


def shape(function):
    """The function's words, with numbers and names of types put aside."""
    words = re.findall(r"[A-Za-z_]\w*|\d\w*|[^\s\w]", re.sub(r"//.*", "", function.body))
    return ["N" if w[0].isdigit() else "T" if w[0].isupper() or w in ("u8", "u16", "u32") else w for w in words]


def twins(all_functions):
    shaped = [(f, shape(f)) for f in all_functions]
    shaped = [(f, s) for f, s in shaped if len(s) >= 12]
    for i, (f, s) in enumerate(shaped):
        for g, t in shaped[i + 1:]:
            if abs(len(s) - len(t)) * 5 <= len(s) and difflib.SequenceMatcher(None, s, t, False).ratio() >= 0.85:
                yield f"{f} ~ {g}"


def repeated(all_functions):
    """Clauses, views of a value, and pairs of parameters, that three or more functions have."""
    seen = {}
    for f in all_functions:
        signature = f.head.split("requires")[0].split("ensures")[0]
        parameters = sorted({(n, t.strip()) for n, t in re.findall(r"(\w+): ([^,()]+)[,)]", signature)})
        items = {"clause " + c.strip() for c in f.clauses}
        items |= {"view " + v for c in f.clauses for v in VIEW.findall(c)}
        items |= {f"parameters {a[0]}: {a[1]}, {b[0]}: {b[1]}" for i, a in enumerate(parameters) for b in parameters[i + 1:]}
        for item in items:
            seen.setdefault(item, []).append(f)
    for item, users in sorted(seen.items(), key=lambda x: -len(x[1])):
        if len(users) >= 3:
            yield f"{len(users)} × {item.strip()}: " + ", ".join(sorted({f"{u.path.split('/')[1]}.{u.name}" for u in users}))


def switches(all_functions):
    for f in all_functions:
        arms = re.findall(r"=> (?:\{\s*)?(?:let _ = )?[\w.:]+\(", f.body)
        if len(arms) >= 2:
            yield f"{f}: {len(arms)} arms that call"


def lines(sources, pattern):
    for path, text in sources:
        for match in pattern.finditer(text):
            start = match.start() + len(match.group()) - len(match.group().lstrip())
            line = text.count("\n", 0, start) + 1
            if not text.split("\n")[line - 1].lstrip().startswith("//"):
                yield f"{path}:{line} {text.split(chr(10))[line - 1].strip()}"


def proofs(root):
    for path in sorted(root.glob("crates/*/proofs/**/*.antt")):
        text = path.read_text()
        given = len(re.findall(r"^(?:pub |abbrev pub )?[\w'-]+ :", text, re.M))
        if given:
            yield f"{path.relative_to(root)}: {given} answers or lemmas, {len(text.splitlines())} lines"


def places(root, kind):
    sources = [(str(p.relative_to(root)), p.read_text()) for p in sorted(root.glob("crates/*/src/*.rt"))]
    sources = [(p, t if "tables.rt" not in p else t.split("const COLOURS")[0]) for p, t in sources]
    every = [f for p, t in sources for f in functions(p, t)]
    if kind == 1:
        return [*lines(sources, NOTHING), *lines(sources, re.compile(r"^\s+(?:pub(?:\([a-z]+\))? )?\w+: bool\b", re.M)), *lines(sources, LOOSE)]
    if kind == 2:
        return list(twins(every))
    if kind == 3:
        return list(lines(sources, LOOP))
    if kind == 4:
        return list(lines(sources, CONVERSION))
    if kind == 5:
        return list(repeated(every))
    if kind == 6:
        return list(lines(sources, BUFFER))
    if kind == 7:
        return list(switches(every))
    return list(proofs(root))


def main():
    root = pathlib.Path(sys.argv[2] if len(sys.argv) > 2 else ".")
    if sys.argv[1] == "all":
        for kind in range(1, 9):
            print(kind, len(places(root, kind)))
    else:
        print("\n".join(places(root, int(sys.argv[1]))))


main()
