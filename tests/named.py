"""What README and docs/ name has to be there: named.py [FOLDER], where FOLDER has README.md and docs/ (here, if none is
given) and all else is here.

It prints a line for each place that it looked at: the place, a tab, and what is wrong, or nothing. It looks at

- the rows of "Every public call" in docs/PROOFS.md: each names a crate, calls of that crate, and tests that there are;
- paths in README.md and docs/;
- links of one page to another, and to a heading in it;
- sections of a page that any text cites by their title.

What a row is shown by is a list, parted by ";". An item of it is `nothing`, or says where, and perhaps which parts:

    tests/pqx.sh                      a file, or a folder
    bench/kill.sh --journal           a file in which that option stands
    tests/renewal.sh: serving         a part of a file: words that stand in a line of it that is no comment
    tests/broker: creation, names-..  files of a folder, without what follows their first full stop
    test_threads: crowd               a crate, and modules or functions of it
"""
import re
import sys
from pathlib import Path

PAGES = Path(sys.argv[1] if len(sys.argv) > 1 else ".")
PLACEHOLDERS = re.compile(r"\b(CRATE|NAME|FILE|FOLDER|NUMBER|PART|MINUTES)\b")
ROOTS = "crates|tests|docs|bench|examples|plain|tools|clients"


def crates():
    """The crates of crates.txt."""
    lines = Path("crates.txt").read_text().splitlines()
    return {line.split(":")[0].split()[0] for line in lines if line and not line.startswith("#")}


def sources(crate):
    """The text of a crate's files."""
    return "\n".join(path.read_text() for path in sorted(Path("crates", crate, "src").rglob("*.rt")))


def globbed(name):
    """A name with `..` for what differs, as a pattern of files."""
    return re.sub(r"\.\.(?!/)", "*", name)


def files_of(folder, part):
    """Whether a folder has files of this name, whatever they end in."""
    pattern = globbed(part)
    return any(folder.glob(pattern)) or any(folder.glob(pattern + ".*"))


def stands_in(text, words):
    """Whether the words stand in a line of a text that is no comment."""
    found = re.compile(r"(?<!\w)" + re.escape(words) + r"(?!\w)")
    return any(found.search(line) for line in text.splitlines() if not line.lstrip().startswith(("#", "//")))


def wrong_part(where, part):
    """What is wrong with a part of a crate, a folder or a file."""
    path = Path(where)
    if where in CRATES:
        module = Path("crates", where, "src", part + ".rt")
        if not module.exists() and not re.search(rf"\bfn {re.escape(part)}\b", sources(where)):
            return f"the crate {where} has no module and no function {part}"
    elif path.is_dir():
        if not files_of(path, part):
            return f"{where} has no file {part}"
    elif not stands_in(path.read_text(), part):
        return f"{where} has no part {part!r}"
    return ""


def wrong_item(item):
    """What is wrong with an item of what a row is shown by."""
    where, _, parts = item.replace("`", "").partition(": ")
    where, *options = where.split(" ")
    if item == "nothing":
        return ""
    if where not in CRATES and not ("/" in where and Path(where).exists()):
        return f"there is no {where}"
    said = [wrong_part(where, part.strip()) for part in parts.split(",") if part.strip()]
    said += [f"{where} has no {option}" for option in options if option not in Path(where).read_text()]
    return "; ".join(filter(None, said))


def wrong_call(crate, name):
    """What is wrong with a name that stands for a call of a crate, or for what has it."""
    last = name.split("::")[-1]
    kinds = "struct|enum|trait|type" if last[0].isupper() else "fn"
    there = re.search(rf"\b({kinds}) {re.escape(last)}\b", sources(crate)) or last + ".rt" == "laws.rt"
    return "" if there else f"{crate} has no {name}"


def rows():
    """The rows of "Every public call": a crate, its calls, and what shows them, if that is said."""
    text = (PAGES / "docs/PROOFS.md").read_text()
    table = text[text.index("## Every public call") : text.index("## Forms")]
    for line in table.splitlines():
        cells = [cell.strip() for cell in line.strip("| ").split(" | ")]
        if line.startswith("| ") and cells[0] != "crate":
            yield cells[0], cells[1], cells[4] if len(cells) == 5 else ""


def called(calls):
    """The names of a row's calls. What stands in them behind a dot, or in brackets, is no name."""
    return re.findall(r"`([A-Za-z_][\w:]*)`", calls)


def look_at_rows():
    for crate, calls, shown in rows():
        if crate not in CRATES:
            yield f"PROOFS: {crate}", "there is no such crate"
            continue
        said = [wrong_call(crate, name) for name in called(calls)]
        said += [wrong_item(item.strip()) for item in shown.split(";") if item.strip()]
        yield f"PROOFS: {crate}: {calls[:60]}", "; ".join(filter(None, said))


def is_there(path):
    """Whether there is such a path; what is built (out/) is not asked for, nor what has a placeholder."""
    if "/out/" in path or PLACEHOLDERS.search(path):
        return True
    path = path.rstrip("./") if not path.endswith("..") else path
    return Path(path).exists() or any(Path().glob(globbed(path)))


def pages():
    return [PAGES / "README.md", *sorted((PAGES / "docs").glob("*.md"))]


def found(texts, pattern):
    """What a pattern finds in each of these texts, once."""
    return [(path, text) for path in texts for text in sorted(set(pattern.findall(path.read_text())))]


def look_at_paths():
    named = re.compile(rf"(?<![\w/.*-])(?:{ROOTS})/[\w./*-]*[\w*]")
    for page, path in found(pages(), named):
        yield f"{page.relative_to(PAGES)}: {path}", "" if is_there(path) else "there is no such path"


def anchors(page):
    """The anchors of a page's headings, as they are made of their words."""
    heads = re.findall(r"^#+ (.*)$", page.read_text(), re.M)
    return {re.sub(r"[^\w\- ]", "", head.lower()).replace(" ", "-") for head in heads}


def wrong_link(page, link):
    """What is wrong with a link of a page."""
    path, _, anchor = link.partition("#")
    other = page.parent / path if path else page
    if not other.exists():
        return "there is no such file"
    return "" if not anchor or anchor in anchors(other) else "there is no such heading"


def look_at_links():
    linked = re.compile(r"(?:\]\(|^\[\w+\]: )([^)\s]+)", re.M)
    for page, link in found(pages(), linked):
        yield f"{page.relative_to(PAGES)}: {link}", wrong_link(page, link)


def citing():
    """The texts that may cite a section by its title."""
    patterns = "crates/*/src/**/*.rt", "tests/*.sh", "tests/*.py", "bench/**/*.sh", "bench/**/*.py", "examples/*.py"
    return [*pages(), *(path for pattern in patterns for path in sorted(Path().glob(pattern)))]


def look_at_sections():
    cited = re.compile(r'docs/([A-Z]+)\.md,\s(?:#\s|//\s)?"([^"]+)"')
    for path, (page, title) in found(citing(), cited):
        title = " ".join(title.split())
        heads = re.findall(r"^#+ (.*)$", (PAGES / f"docs/{page}.md").read_text(), re.M)
        said = "" if any(head.startswith(title) for head in heads) else "there is no such section"
        yield f"{path.name}: docs/{page}.md, {title}", said


CRATES = crates()
for look in look_at_rows, look_at_paths, look_at_links, look_at_sections:
    for place, said in look():
        print(place, said, sep="\t")
