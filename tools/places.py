#!/usr/bin/env python3
"""Lists the places in src/ where an older form of Rattle may still stand: docs/DESIGN-PASS.md has the points.

usage: tools/places.py [TREE] [--list]

TREE is a checkout, this one if none is given. Each row is a point, what is looked for, and how many places there are; with --list each place follows.
It reads files as text and judges nothing: a row is a place to look.
"""
import collections, glob, os, re, sys

args = [a for a in sys.argv[1:] if not a.startswith("--")]
top = args[0] if args else os.path.join(os.path.dirname(os.path.abspath(__file__)), "..")
show = "--list" in sys.argv

FN = re.compile(r"^(\s*)(pub(?:\(crate\))? )?((?:const |unsafe |extern \"C\" )*)fn (\w+)", re.M)


def functions(text):
    """(line, name, signature, contract, body) of each function, by indentation as `rt fmt` lays out."""
    lines = text.split("\n")
    i = 0
    while i < len(lines):
        m = FN.match(lines[i])
        if not m:
            i += 1
            continue
        indent, first = m.group(1), i
        while not (lines[i].startswith(indent + "{") or lines[i].rstrip().endswith("{")):
            i += 1
            if i >= len(lines):
                return
        head = "\n".join(lines[first : i + 1])
        j = i + 1
        while j < len(lines) and not re.match(re.escape(indent) + r"\}", lines[j]):
            j += 1
        cut = re.search(r"^\s*(requires|ensures)\b", head, re.M)
        signature = head[: cut.start()] if cut else head
        contract = head[cut.start() :] if cut else ""
        yield first + 1, m.group(4), signature, contract, "\n".join(lines[i + 1 : j])
        i = j + 1


files = []
for crate in sorted(glob.glob(os.path.join(top, "crates", "*"))):
    for path in sorted(glob.glob(os.path.join(crate, "src", "**", "*.rt"), recursive=True)):
        raw = open(path, encoding="utf-8").read()
        code = re.sub(r"//.*", "", raw)
        files.append((os.path.relpath(path, top), code))

rows = collections.OrderedDict()


def add(key, where):
    rows.setdefault(key, []).append(where)


for key in [
    "1a a struct's number or flag beside the value that it speaks of",
    "1b a variant that holds a refusal's number",
    "1c a function that answers with a refusal's number",
    "1d a parameter or field that holds a kind or a setting as a number",
    "2  functions alike but for names, types, sizes or constants",
    "3a `while` over an index that goes up by one",
    "3b `for` over an index that only reads or writes one list at it",
    "4a a function that only widens or narrows a number",
    "4b lists compared, copied or filled by hand",
    "4c a number's bytes or digits by hand",
    "5a facts that stand in the contracts of three or more functions of a crate",
    "5b parameters that travel together through three or more functions of a crate",
    "6a a length beside the array that it speaks of, in a struct",
    "6b parallel arrays in a struct",
    "7  a switch on the encoding's number; tables of functions",
]:
    rows[key] = []
K = list(rows)

shapes = collections.defaultdict(list)
facts = collections.defaultdict(lambda: collections.defaultdict(list))
pairs = collections.defaultdict(lambda: collections.defaultdict(list))
REFUSING = re.compile(r"refus|number|judg|fault|read_back|\bread\b|\bwrite\b|first_of|or_else|of_transaction|first_refused|load|again|timed")

for path, code in files:
    crate = path.split(os.sep)[1]
    for m in re.finditer(r"struct \w+(?:<[^>]*>)? \{\n(.*?)\n\s*\}", code, re.S):
        body, line = m.group(1), code[: m.start()].count("\n") + 1
        fields = re.findall(r"(\w+): ([^,\n]+)", body)
        for name, kind in fields:
            if len(fields) > 1 and (name in ("number", "found", "drops", "stuck") or (name in ("on", "ok", "opened", "taken") and kind == "bool")):
                add(K[0], f"{path}:{line} {name}")
            if kind in ("u8", "usize", "u32") and name in ("kind", "encoding", "pruning", "verdict", "stage", "direction"):
                add(K[3], f"{path}:{line} {name}: {kind}")
        arrays = [(n, k) for n, k in fields if re.match(r"\[[^;]+; *[\w]+\]", k)]
        if arrays and any(n in ("length", "count", "transactions", "len", "n", "size", "left") for n, _ in fields):
            add(K[12], f"{path}:{line}")
        sizes = collections.Counter(re.search(r"; *(\w+)\]$", k).group(1) for _, k in arrays if re.search(r"; *(\w+)\]$", k))
        if any(v > 1 for v in sizes.values()):
            add(K[13], f"{path}:{line}")
    for m in re.finditer(r"Refused\(u\d+\)", code):
        add(K[1], f"{path}:{code[:m.start()].count(chr(10))+1}")
    for line, name, signature, contract, body in functions(code):
        here = f"{path}:{line} {name}"
        if re.search(r"-> (u8|u32)\b", signature) and not crate.startswith("host") and (REFUSING.search(name) or re.search(r"number|refus", contract)):
            add(K[2], here)
        params = re.findall(r"(\w+): ([^,()]+)", signature[signature.find("(") :])
        for n, k in params:
            if n in ("kind", "encoding", "pruning", "e", "p", "op", "which") and k.strip() in ("u8", "usize", "u32"):
                add(K[3], here + f" {n}")
        if len(body.strip().split("\n")) >= 2:
            head = re.sub(r"\bfn \w+", "fn", signature)
            text = re.sub(r"\b(u8|u16|u32|u64|usize|i32)\b", "T", head + body)
            text = re.sub(r"\b(self\.)?\w+(::\w+)*\(", "F(", text)
            text = re.sub(r"\b\d[\w]*\b", "N", text)
            text = re.sub(r"\b[A-Z][A-Z_]+\b", "N", text)
            text = re.sub(r"b?\"[^\"]*\"", "S", text)
            names = {}
            text = re.sub(r"\b[a-z_]\w*\b", lambda m: m.group(0) if m.group(0) in ("fn", "mut", "pub", "let", "if", "else", "while", "for", "in", "return", "match", "true", "false", "loop") else names.setdefault(m.group(0), f"v{len(names)}"), text)
            shapes[re.sub(r"\s+", " ", text)].append(here)
        for m in re.finditer(r"while (\w+) < [^{]*\{(.*)", body, re.S):
            if re.search(r"^\s*" + m.group(1) + r" \+= 1;", m.group(2), re.M):
                add(K[5], here + " " + m.group(1))
        for m in re.finditer(r"for (\w+) in 0\.\.[^{]*\{\n(.*?)\n(\s*)\}\n", body + "\n}\n", re.S):
            v, inner = m.group(1), m.group(2)
            uses = re.findall(r"(\w+)\[" + v + r"\]", inner)
            rest = re.sub(r"\w+\[" + v + r"\]", "", inner)
            if uses and len(set(uses)) == 1 and not re.search(r"\b" + v + r"\b", rest):
                add(K[6], here + " " + v)
        stripped = body.strip()
        if "\n" not in stripped and re.fullmatch(r"\w+ as (u8|u16|u32|u64|usize)|\(\w+ [%/] \d+\) as u8", stripped):
            add(K[7], here)
        if re.match(r"(same|equal|copy|fill|clear|all_same|alike)", name) and crate != "graph" or re.search(r"(\w+)\[i\] (!=|==) \w+\[i\]", body):
            add(K[8], here)
        if re.search(r"% 256\) as u8|/ 256\b|48 \+ |b'0' \+", body):
            add(K[9], here)
        for clause in re.findall(r"requires \w* ?\{(.*)\}", contract):
            for fact in re.split(r"×", clause):
                f = re.sub(r"\s+", " ", fact).strip().strip("()")
                if f:
                    facts[crate][f].append(here)
        known = [n for n, k in params if n != "self"]
        for a in range(len(known)):
            for b in range(a + 1, len(known)):
                pairs[crate][(known[a], known[b])].append(here)
        if re.search(r"\bencoding (==|!=|>|<) |\be (==|!=) \d", body) or re.search(r"\bfn\(", signature):
            add(K[14], here)

for group in shapes.values():
    if len(group) > 1:
        for g in group:
            add(K[4], g)
for crate in facts:
    for f, where in sorted(facts[crate].items()):
        if len(where) >= 3:
            add(K[10], f"{crate}: {f} ({len(where)})")
for crate in pairs:
    for p, where in sorted(pairs[crate].items()):
        if len(where) >= 3:
            add(K[11], f"{crate}: {', '.join(p)} ({len(where)})")

for key, where in rows.items():
    print(f"{len(where):5}  {key}")
    if show:
        for w in where:
            print(f"         {w}")
answers = glob.glob(os.path.join(top, "crates", "*", "proofs", "**", "*.antt"), recursive=True)
own = [a for a in answers if os.path.basename(a) in ("Answers.antt", "Invariants.antt", "Proof.antt")]
print(f"{sum(len(open(a, encoding='utf-8').read().splitlines()) for a in own):5}  8  lines of answers and invariants, in {len(own)} files")
