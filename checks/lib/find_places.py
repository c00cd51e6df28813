"""Sees that what the documents name exists.

usage: find_places.py ROOT
- In docs/RULES.md and docs/FORMATS.md each rule ends with a line `Kept by CRATE: File.antt WORD, WORD; fn NAME, NAME.`,
  one such line for each crate that keeps it. File.antt stands in the crate's specs/ and has each WORD; the functions
  stand in the crate's src/. A rule is a section, or where a section has paragraphs that begin with a bold title, each
  of these.
- docs/ARCHITECTURE.md has a table of the crates under a heading for each group. Each row names what its crate stands
  on; crates.txt has the same crates, under a comment with the name of the same group, on the same ones of the
  repository.
"""
import pathlib
import re
import sys

KEPT = re.compile(r"^Kept by `(\w+)`: (.*)\.$")
FILE = re.compile(r"^`([A-Za-z0-9]+\.antt)` (.*)$")


def words_of(text):
    return re.findall(r"`([^`]+)`", text)


def has_word(text, word):
    return re.search(rf"(?m)^\s*(abbrev )?(pub )?(abbrev |record |data |opaque )*{re.escape(word)}\b", text) is not None


def faults_of_line(root, crate, said):
    """Yields what a line `Kept by` names and is not there."""
    folder = root / "crates" / crate
    if not folder.is_dir():
        yield f"no crate {crate}"
        return
    code = "\n".join(file.read_text() for file in sorted((folder / "src").rglob("*.rt")))
    for part in said.split("; "):
        if part.startswith("fn "):
            for name in words_of(part):
                if not re.search(rf"\bfn {re.escape(name.split('::')[-1])}\b", code):
                    yield f"{crate} has no function {name}"
            continue
        match = FILE.match(part)
        if not match:
            yield f"unreadable: {part}"
            continue
        file = folder / "specs" / match[1]
        if not file.is_file():
            yield f"{crate} has no specs/{match[1]}"
            continue
        text = file.read_text()
        for word in words_of(match[2]):
            if not has_word(text, word):
                yield f"{crate}/specs/{match[1]} has no {word}"


def rules_of(text):
    """Yields the title and the lines of each rule of a document."""
    for section in re.split(r"(?m)^## ", text)[1:]:
        title, _, body = section.partition("\n")
        parts = re.split(r"(?m)^(?=\*\*[A-Z])", body)
        if len(parts) > 1:
            for part in parts[1:]:
                yield f"{title} / {part[2:part.index('**', 2)]}", part.splitlines()
        else:
            yield title, body.splitlines()


def faults_of_rules(root, name):
    for title, lines in rules_of((root / "docs" / name).read_text()):
        kept = [KEPT.match(line) for line in lines if line.startswith("Kept by")]
        if not kept:
            yield f"{name}: {title}: no line says where it is kept"
        for match in kept:
            if not match:
                yield f"{name}: {title}: a line `Kept by` does not read"
                continue
            for fault in faults_of_line(root, match[1], match[2]):
                yield f"{name}: {title}: {fault}"


def crates_listed(root):
    """Returns for each crate of crates.txt its group and the crates of the repository that it stands on."""
    group, rows = None, {}
    for line in (root / "crates.txt").read_text().splitlines():
        if line.startswith("# group: "):
            group = line.removeprefix("# group: ")
        elif line.strip() and not line.startswith("#"):
            name, _, below = line.partition(":")
            rows[name.split()[0]] = (group, set(below.split()))
    return {name: (group, below & rows.keys()) for name, (group, below) in rows.items()}


def crates_mapped(root):
    """Returns the same of the tables of docs/ARCHITECTURE.md."""
    group, rows = None, {}
    for line in (root / "docs" / "ARCHITECTURE.md").read_text().splitlines():
        if line.startswith("### "):
            group = line.removeprefix("### ").lower()
        match = re.match(r"^\| `(\w+)` \|([^|]*)\|", line)
        if match and group:
            rows[match[1]] = (group, set(words_of(match[2])))
    return rows


def faults_of_map(root):
    listed, mapped = crates_listed(root), crates_mapped(root)
    for name in sorted(listed.keys() | mapped.keys()):
        if name not in mapped:
            yield f"ARCHITECTURE.md: no row for {name}"
        elif name not in listed:
            yield f"ARCHITECTURE.md: {name} is not in crates.txt"
        elif listed[name] != mapped[name]:
            yield f"ARCHITECTURE.md: {name}: {mapped[name]}, and crates.txt has {listed[name]}"
    for name in sorted(listed):
        if not (root / "crates" / name / "README.md").is_file():
            yield f"crates/{name} has no README.md"
        readme = (root / "README.md").read_text()
        if f"`{name}`" not in readme:
            yield f"README.md: no row for {name}"


def main(words):
    root = pathlib.Path(words[0])
    faults = [*faults_of_rules(root, "RULES.md"), *faults_of_rules(root, "FORMATS.md"), *faults_of_map(root)]
    for fault in faults:
        print(fault)
    print("places: all there" if not faults else f"places: {len(faults)} are not there")
    return 1 if faults else 0


if __name__ == "__main__":
    sys.exit(main(sys.argv[1:]))
