#!/usr/bin/env python3
"""Writes docs/DEFINITIONS.md from the comments above the public definitions in crates/*/specs.

  docs/definitions.py           writes the page
  docs/definitions.py --check   names each definition without a comment, and says whether the page is out of date

The status is 1 where a comment is missing or, under --check, where the page is not what would be written.
The crates come in the order of crates.txt, and files in the order of specs/Lib.antt. Definitions that follow one another
with no empty line between them share the comment above the first. A line that begins with `-- ----` parts a file, and
belongs to no definition. Modules of lemmas, and those below specs/formers, which no contract cites, are left out.
"""
import pathlib
import re
import sys

TOP = pathlib.Path(__file__).resolve().parent.parent
PAGE = TOP / "docs" / "DEFINITIONS.md"
HEAD = """# Definitions

What the contracts cite, in plain words, crate by crate. Each table is a file of the folder `specs/` of its crate. `docs/definitions.py` writes this page from the comments above the definitions, so a change belongs there. A byte is a number, a text is the list of its bytes, and a list is a list: contracts see neither addresses nor room. What stands at a path at one moment, as a disk answers it, is its *file information*: nothing, a directory, a file with its size and stamp, or a link with its text.
"""
DEFINITION = re.compile(r"\s*(?:(?:abbrev|unfoldable) )?pub (?:record|data) (\S+)"
                        r"|\s*(?:abbrev|unfoldable) pub (\S+)"
                        r"|pub (?!mod |record |data )(\S+) :")
COMMENT = re.compile(r"\s*--(?: (?!----)(.*))?$")


def crates():
    """The names of the crates, in order."""
    for line in (TOP / "crates.txt").read_text("utf-8").splitlines():
        words = line.split("#")[0].split(":")[0].split()
        if words:
            yield words[0]


def files(specs):
    """The files of definitions of a crate, in the order of its Lib.antt, and those that it does not name after them."""
    lib = specs / "Lib.antt"
    named = re.findall(r"^pub mod (\w+)", lib.read_text("utf-8"), re.M) if lib.exists() else []
    found = [path for path in sorted(specs.rglob("*.antt"))
             if path != lib and not path.stem.endswith("Lemmas") and path.relative_to(specs).parts[0] not in ("formers", "formers.antt")]

    def place(path):
        first = path.relative_to(specs).with_suffix("").parts[0]
        return named.index(first) if first in named else len(named)

    return sorted(found, key=place)


def rows_of(lines):
    """The definitions of a file, as pairs of the names in a row and the text of the comment above them."""
    rows, comment, names = [], [], None
    for line in lines:
        said, defined = COMMENT.match(line), DEFINITION.match(line)
        if said:
            if names is not None:
                comment, names = [], None
            comment.append(said.group(1) or "")
        elif defined:
            name = next(filter(None, defined.groups()))
            if names is None:
                names = []
                rows.append((names, " ".join(comment).strip()))
            names.append(name)
        elif not line.strip() or line.lstrip().startswith("-- ----"):
            comment, names = [], None
        elif names is None and not line.startswith("infix"):
            comment = []
    return rows


def head_of(lines):
    """What the comment at the start of a file says: its first sentence, and the rest."""
    said = []
    for line in lines:
        text = COMMENT.match(line)
        if not text:
            break
        said.append(text.group(1) or "")
    first, _, rest = " ".join(said).strip().partition(". ")
    return first.rstrip("."), rest.strip()


def cell(text):
    return text.replace("|", "\\|")


def write():
    """The page, and what has no comment."""
    page, missing = [HEAD], []
    for crate in crates():
        specs = TOP / "crates" / crate / "specs"
        tables = []
        for path in files(specs) if specs.is_dir() else []:
            lines = path.read_text("utf-8").splitlines()
            rows = rows_of(lines)
            if not rows:
                continue
            title, rest = head_of(lines)
            where = path.relative_to(TOP)
            if not title:
                missing.append(f"{where}: the file itself")
            missing += [f"{where}: {name}" for names, text in rows if not text for name in names]
            tables.append(f"### {title} (`{path.relative_to(specs)}`)\n" + (f"\n{rest}\n" if rest else ""))
            tables.append("| Name | In plain words |\n|---|---|\n" + "".join(
                f"| {', '.join(f'`{cell(name)}`' for name in names)} | {cell(text.rstrip('.'))} |\n" for names, text in rows))
        if tables:
            page += [f"## {crate}\n"] + tables
    return "\n".join(page), missing


def main(words):
    if words not in ([], ["--check"]):
        sys.exit(__doc__)
    page, missing = write()
    for what in missing:
        print(f"definitions: no comment above {what}")
    if not words:
        PAGE.write_text(page, "utf-8")
        return bool(missing)
    same = PAGE.exists() and PAGE.read_text("utf-8") == page
    if not same:
        print("definitions: docs/DEFINITIONS.md is out of date; docs/definitions.py writes it")
    if missing or not same:
        return True
    print("definitions: passed")
    return False


if __name__ == "__main__":
    sys.exit(main(sys.argv[1:]))
