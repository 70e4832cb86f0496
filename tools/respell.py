#!/usr/bin/env python3
"""Respells the repository's own definitions, lemmas, fields and labels: words in snake case, facts and types in camel case.

usage: tools/respell.py        once, at the top, right after the kit's port script

A name is respelled where an .antt file of crates/ declares it, and stays where the library has it too, or where Rattle makes it (a goal).
Comments and strings keep their words, but for names in camel case and names in backticks. The table of what was respelled goes to standard output.
"""
import collections
import pathlib
import re
import sys

CRATES = pathlib.Path("crates")
TOKEN = re.compile(r"[A-Za-z_][\w'-]*(?<!-)")
NAME = r"[A-Za-z_][\w'-]*"
DECLARED = re.compile(rf"^\s*(?:(?:abbrev|unfoldable|pub|pattern)\s+)*((?:{NAME}\s+)*{NAME})\s*(?:\{{[^}}]*\}}\s*)?:(?=\s|$)")
USE = re.compile(r"^(?:pub )?(?:ghost )?use ([^\s;{]+?)\.?(?:\{([^}]*)\}|\s+as\s+(\S+))?;?\s*$", re.M)


def text_and_rest(line, mark):
    """A line's code and its comment; a mark within a string begins none."""
    inside = False
    i = 0
    while i < len(line):
        if line[i] == '"':
            inside = not inside
        elif line[i] == "\\" and inside:
            i += 1
        elif not inside and line.startswith(mark, i):
            return line[:i], line[i:]
        i += 1
    return line, ""


def joined_uses(text):
    return re.sub(r"\{\s*\n([^}]*)\}", lambda m: "{" + " ".join(m.group(1).split()) + "}", text)


def signatures(text):
    """Each declared name, with the text of its type."""
    lines = text.split("\n")
    for at, line in enumerate(lines):
        code, _ = text_and_rest(line, "--")
        found = DECLARED.match(code)
        if not found or code.split()[0] in ("let", "use", "module", "record", "elim"):
            continue
        kind = code[found.end():]
        depth = len(line) - len(line.lstrip())
        for more in lines[at + 1:]:
            inner = len(more) - len(more.lstrip())
            if not more.strip() or inner <= depth or "=" in text_and_rest(more, "--")[0].split():
                break
            kind += " " + text_and_rest(more, "--")[0]
        for name in found.group(1).split():
            yield name, " ".join(kind.split())


def snake(name):
    name = name.replace("-", "_")
    return re.sub(r"(?<=[a-z0-9'])([A-Z])", lambda m: "_" + m.group(1).lower(), name) if name[0].islower() or name[0] == "_" else name


def camel(name):
    return "".join(part[0].upper() + part[1:] for part in re.split(r"[-_]", name) if part)


def own_names(files, crates):
    own, library, snakes = {}, set(), set()
    rust = {name for path, text in files.items() if path.suffix == ".rt" for name in re.findall(r"(?:fn|let|mut|pub|[(,]|^) *(\w+)(?=[(:<])", text, re.M)}
    for path, text in files.items():
        for m in USE.finditer(joined_uses(text)):
            head = m.group(1).split(".")
            own_path = head[0] == "Rattle" and len(head) > 1 and head[1] in crates
            made = own_path and len(head) > 2 and head[2] == "proofs" and head[-1] in ("Statement", "Tie", "Reads", "Goals")
            if m.group(2) and (not own_path or made):
                library |= {w.split(" as ")[0].strip() for w in m.group(2).split(",")}
            if m.group(2):
                own |= {w: "word" for w in re.findall(r" as ([a-z][\w'-]*)", m.group(2)) if w != snake(w)}
        if path.suffix != ".antt":
            continue
        for name, kind in signatures(text):
            if re.match(r"(tie|goal)\.", kind):
                continue
            snakes.add(name)
            if "-" in name or re.match(r"[a-z]\w*[A-Z]", name):
                is_type = re.search(r"(^|→ |\) )Type( \d| ℓ|$)[^→]*$", kind) is not None
                own[name] = "type" if is_type or own.get(name) == "type" else own.get(name, "word")
    table = {}
    for name, kind in own.items():
        if name in library or re.match(r"(Need|returns|invariant|decreases)-", name) and kind != "type":
            continue
        new = camel(name) if kind == "type" else snake(name)
        if new != name:
            table[name] = new
    # A lemma that would get the name of its definition.
    defined = {new for name, new in table.items() if "-" not in name}
    lemmas = {name for name, new in table.items() if "-" in name and new in defined | snakes}
    lemmas |= {name for name in snakes & defined if name not in rust and name not in library}
    return {name: snake(name) + "_lem" if name in lemmas else table[name] for name in table.keys() | lemmas}


def aliases(text):
    return {m.group(3): camel(m.group(3)) for m in USE.finditer(text) if m.group(3) and "-" in m.group(3)}


def private_lemmas(text, table):
    """A private name of a file that is spelled as a definition's new name, which the file cites too."""
    cited = {table.get(token) for token in re.findall(rf"(?<![.\w'-]){NAME}", text)}
    return {name: name + "_lem" for name, _ in signatures(text) if name in cited and name not in table and f"pub {name} " not in text}


def respelled(text, table, mark, only_clauses):
    out = []
    modules = {} if only_clauses else aliases(text) | private_lemmas(text, table)

    def new_name(m, line):
        name = m.group()
        return modules[name] if name in modules and line[m.start() - 1:m.start()] != "." else table.get(name, name)

    depth = 0
    for line in text.split("\n"):
        code, comment = text_and_rest(line, mark)
        clause = depth > 0 or re.match(r"\s*(ghost|requires|ensures)\b", code) is not None
        if only_clauses and clause:
            depth = max(0, depth + code.count("{") - code.count("}"))
        parts = re.split(r'("(?:[^"\\]|\\.)*")', code)
        for i in range(0, len(parts), 2):
            part = parts[i]
            parts[i] = TOKEN.sub(lambda m: new_name(m, part) if not only_clauses or clause or "-" not in m.group() else m.group(), part)
        comment = re.sub(r"`[^`]*`", lambda m: TOKEN.sub(lambda n: table.get(n.group(), n.group()), m.group()), comment)
        comment = TOKEN.sub(lambda m: table.get(m.group(), m.group()) if re.match(r"[a-z]\w*[A-Z]", m.group()) else m.group(), comment)
        out.append("".join(parts) + comment)
    return "\n".join(out)


def main():
    if len(sys.argv) != 1 or not CRATES.is_dir():
        sys.exit(__doc__)
    paths = [p for p in sorted(CRATES.rglob("*")) if p.suffix in (".rt", ".antt", ".edit") and "out" not in p.parts]
    files = {p: p.read_text() for p in paths}
    crates = {p.name for p in CRATES.iterdir()}
    table = own_names({p: t for p, t in files.items() if p.suffix != ".edit"}, crates)
    together = 0
    for path, text in files.items():
        code = "\n".join(text_and_rest(line, "--")[0] for line in text.split("\n") if "use " not in line or "{" in line)
        tokens = set(re.findall(rf"(?<![.\w'-]){NAME}(?!\.)", re.sub(r'"[^"]*"', "", re.sub(r"^use \S*\{", "", code, flags=re.M))))
        news = collections.defaultdict(set)
        for token in tokens:
            news[table.get(token, token)].add(token)
        for new, olds in news.items():
            if len(olds) > 1 and not (path.suffix == ".rt"):
                together += 1
                print(f"look: {path}: {new} of {' '.join(sorted(olds))}", file=sys.stderr)
    for path, text in files.items():
        new = respelled(text, table, "--" if path.suffix == ".antt" else "//", path.suffix == ".rt")
        if new != text:
            path.write_text(new)
    for old, new in sorted(table.items()):
        print(old, new)
    print(f"{len(table)} names, {together} that fall together in a file", file=sys.stderr)


main()
