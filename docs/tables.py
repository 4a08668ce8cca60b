#!/usr/bin/env python3
"""Makes the tables of docs/MAP.md and docs/DEFINITIONS.md from crates.txt and the files of the crates.

    docs/tables.py             writes both tables between their markers
    docs/tables.py --check     writes nothing, and ends with 1 where a table is not what would be written

Both name the listed definitions that have no comment above them, and end with 1 where a crate stands in crates.txt
before one on which it stands: its layers have a comment as their head, and go from the lowest to the highest.

MAP has a table for each layer, with a row for each crate: the libraries that crates.txt says it stands on, and what the
crate's first doc comment says that callers may rely on. DEFINITIONS lists, for each crate, the definitions of its specs/ that other crates cite,
in contracts or in definitions of their own, and all of the crate that has `run` and of those with its parts that print
and that name: each with its file and the comment above it.
"""
import pathlib
import re
import sys

ROOT = pathlib.Path(__file__).resolve().parent.parent
CRATES = ROOT / "crates"
BEGIN = "<!-- docs/tables.py writes from here -->"
END = "<!-- docs/tables.py writes to here -->"

DEFINITION = re.compile(r" *(?:pub (record|data)|(?:abbrev|unfoldable) pub) +(\S+)")
CONSTRUCTOR = re.compile(r" +(\S+) +:")
USE = re.compile(r"\buse\s+Rattle\.(\w+)\.specs\.(\w+)(?:\.\{([^}]*)\}| as (\w+))?\s*;?$", re.MULTILINE)
TOP_CALL = re.compile(r"^pub fn (run|tell|identify)\b", re.MULTILINE)


def stands_on():
    """The crates of crates.txt, in its order, each with the libraries that stand on its line, in their order."""
    return {name: libraries for _, crates in layers() for name, libraries in crates.items()}


def layers():
    """The layers of crates.txt: the comment at the head of each, and its crates with their libraries."""
    found = []
    for line in (ROOT / "crates.txt").read_text().splitlines()[1:]:
        if line.startswith("# "):
            found.append((line[2:], {}))
        elif line.split("#")[0].strip():
            name, libraries = line.split("#")[0].split(":")
            found[-1][1][name.split()[0]] = libraries.split()
    return found


def out_of_order(crates):
    """The crates that stand in crates.txt before one on which they stand."""
    place = {name: index for index, name in enumerate(crates)}
    return [(name, low) for name in crates for low in crates[name] if place.get(low, -1) > place[name]]


def doc_comment(crate):
    """The first paragraph of a crate's doc comment, as one line."""
    source = CRATES / crate / "src"
    root = source / "lib.rt" if (source / "lib.rt").exists() else source / "main.rt"
    lines = []
    for line in root.read_text().splitlines():
        if not line.startswith("//! "):
            break
        lines.append(line[3:].strip())
    return " ".join(lines)


def relied_on(crate):
    """What the doc comment says that callers may rely on; where it says nothing of that, what the crate is."""
    text = doc_comment(crate)
    promise = re.search(r"\bmay (?:rely on:?|use) (.*)$", text)
    said = promise.group(1) if promise else text.split(". ")[0].rstrip(".") + "."
    return said[:1].upper() + said[1:]


def cell(text):
    """A text as it stands in a table."""
    return text.replace("|", "\\|")


def map_rows(crates):
    rows = []
    for head, names in layers():
        rows += ["", f"### {head[:1].upper() + head[1:]}", "", "| Crate | Stands on | What callers may rely on |", "|---|---|---|"]
        for crate in names:
            below = ", ".join(f"`{name}`" for name in crates[crate])
            rows.append(f"| `{crate}` | {below} | {cell(relied_on(crate))} |")
    return rows[1:]


def comment_above(lines, index):
    """The comment that stands right above a line, as one line."""
    comment = []
    while index > 0 and lines[index - 1].lstrip().startswith("--"):
        index -= 1
        comment.insert(0, lines[index].strip()[2:].strip())
    return " ".join(comment)


def definitions(crate):
    """The definitions of a crate: a comment for each (file, name), and the name of the data of each constructor."""
    comments, owners = {}, {}
    for path in sorted((CRATES / crate / "specs").glob("*.antt")):
        lines = path.read_text().splitlines()
        data = None
        for index, line in enumerate(lines):
            definition = DEFINITION.match(line)
            if definition:
                data = definition.group(2) if definition.group(1) == "data" else None
                comments[path.stem, definition.group(2)] = comment_above(lines, index)
            elif line and not line.startswith(" "):
                data = None
            elif data and CONSTRUCTOR.match(line):
                owners[path.stem, CONSTRUCTOR.match(line).group(1)] = data
    return comments, owners


def cited(crates):
    """The (crate, file, name) that other crates cite, in contracts or definitions."""
    names = set()
    for crate in crates:
        folder = CRATES / crate
        for path in [*(folder / "src").glob("**/*.rt"), *(folder / "specs").glob("*.antt")]:
            text = path.read_text()
            for owner, file, items, alias in USE.findall(text):
                if owner == crate:
                    continue
                if items:
                    names |= {(owner, file, item.split(" as ")[0].strip()) for item in items.split(",")}
                else:
                    names |= {(owner, file, name) for name in re.findall(rf"\b{alias or file}\.([\w-]+)", text)}
    return names


def has_top_call(crate):
    """Whether the crate has the call that the program makes, or its parts that print and that name."""
    return any(TOP_CALL.search(path.read_text()) for path in (CRATES / crate / "src").glob("**/*.rt"))


def definition_rows(crates):
    """The tables of the definitions, and those of them that have no comment."""
    names = cited(crates)
    rows, bare = [], []
    for crate in crates:
        comments, owners = definitions(crate)
        whole = has_top_call(crate)
        wanted = {(file, owners.get((file, name), name)) for owner, file, name in names if owner == crate}
        listed = [entry for entry in comments if whole or entry in wanted]
        if listed:
            rows += ["", f"## `{crate}`", "", "| Definition | File | What it says |", "|---|---|---|"]
        for file, name in listed:
            said = comments[file, name]
            rows.append(f"| `{name}` | `{file}.antt` | {cell(said[:1].upper() + said[1:])} |")
            if not said:
                bare.append(f"crates/{crate}/specs/{file}.antt: {name}")
    return rows[1:], bare


def rewritten(text, rows):
    """A document's text with these rows between its markers."""
    before, rest = text.split(BEGIN)
    after = rest.split(END)[1]
    return before + "\n".join([BEGIN, "", *rows, "", END]) + after


def main():
    check = sys.argv[1:] == ["--check"]
    if sys.argv[1:] and not check:
        sys.exit(__doc__)
    crates = stands_on()
    listed, bare = definition_rows(crates)
    differ = False
    for name, low in out_of_order(crates):
        differ = True
        print(f"crates.txt: {name} stands before {low}, on which it stands")
    for name, rows in (("MAP.md", map_rows(crates)), ("DEFINITIONS.md", listed)):
        path = ROOT / "docs" / name
        old = path.read_text()
        new = rewritten(old, rows)
        if old != new and check:
            differ = True
            print(f"docs/{name} is not what docs/tables.py writes")
        elif old != new:
            path.write_text(new)
    for name in bare:
        print(f"no comment above {name}")
    sys.exit(1 if differ else 0)


if __name__ == "__main__":
    main()
