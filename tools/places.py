#!/usr/bin/env python3
"""Counts the places of docs/DESIGN-PASS.md in crates/*/src, a list for each point.

  tools/places.py          the counts
  tools/places.py POINT    the places of a point, a line each
  tools/places.py again    the places of points 1 to 4, 6 and 7 found in another way: by bodies and types, not by names
"""
import collections
import glob
import re
import sys

FILES = sorted(glob.glob("crates/*/src/*.rt"))


def lines():
    for path in FILES:
        with open(path, encoding="utf-8") as file:
            for number, line in enumerate(file, 1):
                yield f"{path}:{number}", line.rstrip("\n")


def functions():
    """Each function: where, name, its parameters as text, its result, its clauses."""
    for path in FILES:
        text = open(path, encoding="utf-8").read()
        for m in re.finditer(r"^ *(?:pub )?(?:const )?fn (\w+)(?:<[^>]*>)?\(", text, re.M):
            depth, end = 1, m.end()
            while depth:
                depth += {"(": 1, ")": -1}.get(text[end], 0)
                end += 1
            parameters = " ".join(text[m.end() : end - 1].split())
            body = re.search(r"^ *\{|;$", text[end:], re.M)
            head = text[end : end + body.start()] if body else ""
            result = re.match(r"\s*->\s*([^\n]*?)\s*(?:\n|$)", head)
            where = f"{path}:{text.count(chr(10), 0, m.start()) + 1}"
            yield where, m.group(1), parameters, result.group(1) if result else "", re.findall(r"requires\*? ?\w* ?\{(.*)\}", head)


def grep(pattern):
    return [f"{where} {line.strip()}" for where, line in lines() if re.search(pattern, line)]


def own_sums():
    return grep(r"^(pub )?enum (Option[A-Z]\w*|\w+(Result|Read|Field)) ")


def flags_beside():
    return grep(r"^    (pub )?(refused|result|present|started|failed|number): (u8|u16|u32|bool|\w+Result|Result<\(\), \w+>),")


def number_results():
    names = r"(fault|refus|number|check|^write_|^widen|^step_|judge|fresh$|fresh_wide|carry_over|from_number|from_rank|from_index|^rank|^index|merge_readings|add_area|remove_area|unread|spelled)"
    return [f"{w} {n} -> {r}" for w, n, _, r, _ in functions() if re.fullmatch(r"u8|u16|u32|usize", r) and re.search(names, n) and "/src/main" not in w]


def twins():
    word = r"(?<![a-z])(u8|u16|u32|u64|f32|bool|flag|landed|gps|position|percent|remaining|stamped|value|word|heartbeat|low|high|first|second|third|fourth|fifth|state|telemetry|fence|areas?|fix|stage)(?![a-z])"
    groups = collections.defaultdict(list)
    for where, name, parameters, result, _ in functions():
        crate = where.split("/")[1]
        key = re.sub(word, "*", name.replace("_", " "))
        shape = re.sub(r"\w+", "w", parameters + "|" + result)
        if "*" in key:
            groups[(crate, key, shape)].append(f"{where} {name}")
    return [x for g in groups.values() if len(g) > 1 for x in g]


def counted_loops():
    return grep(r"^\s*(while|loop)\b")


def by_hand():
    return grep(r"fn (number|from_number|rank|from_rank|index|from_index|same_point|is_land|on_ground|is_some\w*|is_present|default|display_priority|differ|\w+_or_zero)\(|\.(rank|index|number)\(\)\s*[<=>!]=?\s")


def facts():
    found = collections.defaultdict(list)
    for where, name, _, _, requires in functions():
        for clause in requires:
            for fact in clause.split("×"):
                fact = re.sub(r"\b(s|b|st|state|old|low|telemetry|c)\b", "x", fact.strip(" ()"))
                found[(where.split("/")[1], fact)].append(f"{where} {name}: {fact}")
    groups = [g for g in found.values() if len(g) > 2]
    together = collections.defaultdict(set)
    for where, name, parameters, _, _ in functions():
        parts = [p.strip() for p in parameters.split(",") if ":" in p]
        for i in range(len(parts) - 2):
            together[(where.split("/")[1], ", ".join(parts[i : i + 3]))].add(f"{where} {name}")
    rows = [f"{min(g)} and {len(g) - 1} more: {k[1]}" for k, g in together.items() if len(g) > 2]
    return [f"{g[0]} and {len(g) - 1} more" for g in groups] + rows


def buffers():
    found = [f"{w} {n}({p})" for w, n, p, _, _ in functions() if re.search(r"\[[\w:]+; \w+\], \w+: usize|\[[\w:]+; \w+\], \w+: u8", p)]
    return found + grep(r"^    pub (verts|areas|held|corners): \[")


def switches():
    return [f"{w} {n}({p})" for w, n, p, _, _ in functions() if re.search(r"\b(checking|with_side|once_round|keeps|wide): bool", p)]


def proofs():
    return sorted(glob.glob("crates/*/proofs/**/Answers.antt", recursive=True))


POINTS = {
    "1a": ("own enums of the shape of Option or Result", own_sums),
    "1b": ("a flag or a refusal with a value beside it", flags_beside),
    "1c": ("numbers for kinds and refusals as results", number_results),
    "2": ("functions that differ in a type, a size or a constant", twins),
    "3": ("loops counted by hand", counted_loops),
    "4": ("equality, order, conversion, default by hand", by_hand),
    "5": ("facts in three contracts, parameters that go together", facts),
    "6": ("buffers with a length beside", buffers),
    "7": ("switches on which step to run", switches),
    "8": ("files of answers", proofs),
}

def bodies():
    """Each function: where, name, body with its head."""
    for path in FILES:
        text = open(path, encoding="utf-8").read()
        for m in re.finditer(r"^( *)(?:pub )?(?:const )?(?:extern \"C\" )?fn (\w+)", text, re.M):
            end = re.search(rf"^{m.group(1)}}}$", text[m.end() :], re.M)
            yield f"{path}:{text.count(chr(10), 0, m.start()) + 1}", m.group(2), text[m.end() : m.end() + end.end()] if end else ""


def again():
    """By what stands in bodies and types, and not by names."""
    found = collections.defaultdict(list)
    shapes = collections.defaultdict(list)
    for where, name, text in bodies():
        code = re.sub(r"//.*", "", text)
        body = code[code.find("\n{") :] if "\n{" in code else code[code.find("{") :]
        result = re.search(r"->\s*(\w+)", code)
        if result and result.group(1) in ("u8", "u16", "u32") and re.search(r"return \d+;|\{ \d+ \} else|=> \d+,", body):
            found["1 a literal number answered"].append(f"{where} {name}")
        if re.search(r"\bwhile\b|\bloop\b", body):
            found["3 while and loop"].append(f"{where} {name}")
        if re.search(r"for \w+ in 0\.\.", body) and re.search(r"\w\[\w+\]", body):
            found["3 a for that indexes"].append(f"{where} {name}")
        if re.search(r"match \(\w+, \w+\)|\.number\(\) ==|as u(8|16|32|64|size)\b", body):
            found["4 casts and comparisons by parts"].append(f"{where} {name}")
        if body.count("\n") > 5:
            shape = re.sub(r"\b\d[\d_.]*\b", "0", re.sub(r"\b[a-zA-Z_]\w*\b", "w", " ".join(body.split())))
            shapes[(where.split("/")[1], shape)].append(f"{where} {name}")
    for group in shapes.values():
        if len(group) > 1:
            found["2 bodies of one shape"] += group
    for where, line in lines():
        if re.search(r"^    (pub )?\w+: (Result|bool),", line):
            found["1 a flag or a result in a struct"].append(f"{where} {line.strip()}")
        if re.search(r"^    (pub )?\w+: \[\w+; \d+\],", line):
            found["6 an array in a struct"].append(f"{where} {line.strip()}")
        if re.search(r"fn \w+.*\bbool\b", line) and not line.strip().startswith("//"):
            found["7 a bool handed in, on a head of one line"] += [f"{where} {line.strip()}"] if re.search(r": bool", line) else []
    return found


if sys.argv[1:] == ["again"]:
    for what, places in sorted(again().items()):
        print(f"{len(places):4}  {what}")
        print("\n".join("      " + place for place in places))
elif len(sys.argv) > 1:
    print("\n".join(POINTS[sys.argv[1]][1]()))
else:
    for point, (what, places) in POINTS.items():
        print(f"{point:3} {len(places()):4}  {what}")
