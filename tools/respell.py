#!/usr/bin/env python3
"""Gives the repository's own definitions and lemmas the spelling of today's Rattle: snake case in place of dashes and of capitals inside
a name. Run once, at the root, right after the toolchain's own port script, with LANDED (the commit before the port) as its argument.
Names that Rattle makes (goals, places) and names of libraries stay."""
import re
import subprocess
import sys
from pathlib import Path

LANDED = sys.argv[1]
CAMEL = re.compile(r"^[a-z][a-z0-9]*(?:[A-Z][A-Za-z0-9]*)+'*$")
KEBAB = re.compile(r"^[A-Za-z0-9_']+(?:-[A-Za-z0-9_']+)+$")
TOKEN = re.compile(r"[^\s(){}\[\],;.\"`]+")
DECLARED = re.compile(r"^\s*(?:\|\s*)?(?:(?:pub|abbrev|unfoldable|data|record|ruleset)\s+)*([^\s(){}\[\],;.:]+)\s*(?:\([^=]*\)|\{[^=]*\}|\s)*:(?:\s|$)")
# laws that would have the name of a word of the library
WORDS = {"bit-and", "bit-or", "bit-xor"}
# laws that the toolchain's script has already given the name that a definition gets here
ALREADY = ("told_in", "all_known")


def at_landed(path):
    return subprocess.run(["git", "show", f"{LANDED}:{path}"], capture_output=True, text=True, check=True).stdout


def own_names():
    paths = subprocess.run(["git", "ls-tree", "-r", "--name-only", LANDED, "crates"], capture_output=True, text=True, check=True).stdout.split("\n")
    names = set()
    for path in paths:
        if re.match(r"crates/[a-z_]+/(specs|proofs)/[^/]+\.antt$", path):
            for line in at_landed(path).split("\n"):
                found = DECLARED.match(line)
                if found and not line.lstrip().startswith("--"):
                    names.add(found.group(1).replace("′", "'"))
    return names


def snake(name):
    if CAMEL.match(name):
        return re.sub(r"(?<=[a-z0-9])(?=[A-Z])", "_", name).lower()
    return name.replace("-", "_")


def renamed():
    own = own_names()
    defined = {snake(n) for n in own if CAMEL.match(n)}
    names = {}
    for name in own:
        if CAMEL.match(name):
            names[name] = snake(name)
        elif KEBAB.match(name):
            # a law that would have the name of what it speaks of
            names[name] = snake(name) + ("_lem" if snake(name) in defined or name in WORDS else "")
    names.update({name: name + "_lem" for name in ALREADY})
    return names


def made():
    """names of steps that Rattle makes of the code's names, with dashes in the older form"""
    words = set()
    for path in Path("crates").glob("*/src/*.rt"):
        words.update(w.replace("_", "-") for w in re.findall(r"[a-z0-9_]+", path.read_text()) if "_" in w)
    return words


MAP = renamed()
MADE = made()


def respell_tokens(text, only=None):
    return TOKEN.sub(lambda m: MAP.get(m.group(0), m.group(0)) if only is None or only(m.group(0)) else m.group(0), text)


def quoted(text):
    return re.sub(r"`[^`\n]+`", lambda m: respell_tokens(m.group(0)), text)


def camel_only(name):
    return bool(CAMEL.match(name))


def antt(text, of_function=False):
    def named(m):
        step = of_function and text_before(m) == "." and m.group(0) in MADE
        return m.group(0) if step else MAP.get(m.group(0), m.group(0))

    def text_before(m):
        return m.string[m.start() - 1 : m.start()]

    lines = []
    for line in text.split("\n"):
        cut = re.search(r"(^|\s)--(\s|$)", line)
        code, comment = (line[: cut.start()], line[cut.start() :]) if cut else (line, "")
        lines.append(TOKEN.sub(named, code) + respell_tokens(quoted(comment), camel_only))
    return "\n".join(lines)


def clauses(text):
    # a ghost use, a clause or a ghost block in braces; comments keep their prose
    lines, inside = [], 0
    for line in text.split("\n"):
        code, slash, comment = line.partition("//")
        starts = re.match(r"\s*(pub )?(ghost|requires|ensures)\b", code) is not None
        if starts or inside > 0:
            code = TOKEN.sub(lambda m: MAP.get(m.group(0), m.group(0)) if m.group(0) not in ALREADY else m.group(0), code)
            inside = max(0, inside + code.count("{") - code.count("}"))
        lines.append(code + slash + respell_tokens(quoted(comment), camel_only))
    return "\n".join(lines)


def tight(text):
    # a projection is written tight
    text = re.sub(r"(?<=[\w')]) \.(?=[a-z0-9])", ".", text)
    return re.sub(r"\((\w[\w'-]*(?:\.[a-z0-9]\w*)+)\)", r"\1", text)


def edit(text):
    lines, file = [], ""
    for line in text.split("\n"):
        if line.startswith("file: "):
            file = line
        if re.match(r"(old|new):", line):
            if file.endswith(".antt"):
                line = tight(respell_tokens(line.replace("′", "'")))
            elif re.match(r"(old|new): *(ghost|requires|ensures)\b", line):
                line = respell_tokens(line)
        elif line.startswith("fact: "):
            line = respell_tokens(line)
        lines.append(line)
    return "\n".join(lines)


def main():
    changed = 0
    for path in sorted(Path("crates").rglob("*")) + sorted(Path("docs").rglob("*.md")) + [Path("README.md")]:
        turn = {".antt": antt, ".rt": clauses, ".edit": edit, ".md": quoted}.get(path.suffix)
        if turn is None or "out" in path.parts:
            continue
        text = path.read_text()
        new = antt(text, True) if path.suffix == ".antt" and len(path.parts) > 4 else turn(text)
        if new != text:
            path.write_text(new)
            changed += 1
    print(f"{len(MAP)} names respelt, {changed} files changed")


if __name__ == "__main__":
    main()
