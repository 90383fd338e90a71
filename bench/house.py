#!/usr/bin/env python3
"""house.py [TOP]: counts of the repository at TOP (here): lines, clauses, argument lists, citations of lower crates'
lemmas, modules with the name of a crate below, depth, long sentences of its pages.

A clause is joined over its lines; its length is that of the joined text. Printed, not tested.
"""
import pathlib
import re
import sys

top = pathlib.Path(sys.argv[1] if len(sys.argv) > 1 else pathlib.Path(__file__).parent.parent)
crates = {}
for line in (top / "crates.txt").read_text().splitlines():
    name, colon, below = line.split("#")[0].partition(":")
    if colon:
        crates[name.strip()] = below.split()


def is_product(crate):
    return not crate.startswith(("test_", "bench_", "demo_"))


def texts(crate, part, kind):
    return [path.read_text() for path in sorted((top / "crates" / crate / part).rglob(f"*.{kind}"))]


def lines(part, kind, product):
    return sum(text.count("\n") for it in crates if is_product(it) == product for text in texts(it, part, kind))


def up_to_end(line, open_braces):
    """The line up to the end of its clause, and how many braces are open then. Those in a text are none."""
    for at, sign in enumerate(re.sub(r'"(?:\\.|[^"\\])*"', lambda text: " " * len(text[0]), line)):
        open_braces += (sign == "{") - (sign == "}")
        if sign == "}" and open_braces == 0:
            return line[: at + 1], 0
    return line, open_braces


def clauses(text):
    """The clauses of a source file, each joined to one line, without a body that follows on the line, and whether a comment
    says why it may be long: one above it, or one at the head of the file."""
    found, open_braces, above = [], 0, ""
    of_all = "longer than 120 columns" in text
    for line in text.splitlines():
        starts = re.match(r"\s*(requires|ensures)\b", line)
        if starts:
            found.append(("", of_all or above.startswith("// ")))
        if starts or open_braces:
            part, open_braces = up_to_end(line.strip(), open_braces)
            found[-1] = f"{found[-1][0]} {part}".strip(), found[-1][1]
        above = line.strip()
    return found


def argument_lists(text):
    """How many arguments each function of a source file takes, `self` among them."""
    counts = []
    for start in re.finditer(r"^ *(?:pub(?:\(\w+\))? )?(?:const )?fn \w+(?:<[^(]*>)?\(", text, re.M):
        nested, found = 0, ""
        for sign in text[start.end() :]:
            if sign == ")" and nested == 0:
                break
            nested += (sign in "([{<") - (sign in ")]}>")
            found += "," if sign == "," and nested == 0 else "x" if sign.strip() and sign != "," else ""
        counts.append(sum(bool(it) for it in found.split(",")))
    return counts


def depth(crate):
    return 1 + max((depth(it) for it in crates[crate] if it in crates), default=0)


def below(crate):
    """The crates that it stands on, of ours."""
    return {lower for it in crates[crate] if it in crates for lower in {it, *below(it)}}


def sentences(text):
    """The sentences of a page, but of no heading, table or block of code."""
    text = re.sub(r"^```.*?^```", "", text, flags=re.S | re.M)
    text = re.sub(r"^(\||#|\[\w+\]: ).*$", "", text, flags=re.M)
    text = re.sub(r"^ *(-|\d+\.) ", "\n\n", text, flags=re.M)
    blocks = [" ".join(block.split()) for block in re.split(r"\n\s*\n", text)]
    return [it for block in blocks for it in re.split(r"(?<=[.!?])(?:\*\*|\))? (?=[^a-z])", block)]


def words(sentence):
    """How many words it has; the path of a link is none."""
    return sum(bool(re.search(r"\w", it)) for it in re.sub(r"\]\([^)]*\)", "]", sentence).split())


def long_sentences(page, most):
    return sum(words(it) > most for it in sentences(page.read_text()))


all_clauses = [it for crate in crates for text in texts(crate, "src", "rt") for it in clauses(text)]
cited = [
    (crate, module)
    for crate in crates
    for text in texts(crate, "proofs", "antt")
    for module in re.findall(r"^use Rattle\.(\w+\.proofs[\w.]*)\.\{", text, re.M)
    if module.split(".")[0] in crates and module.split(".")[0] != crate
]
answers = sum(
    path.read_text().count("\n")
    for crate in crates
    for path in (top / "crates" / crate / "proofs").rglob("Answers.antt")
)
print("lines of src, product:", lines("src", "rt", True))
print("lines of src, tests, bench and demo:", lines("src", "rt", False))
print("lines of specs:", lines("specs", "antt", True) + lines("specs", "antt", False))
print("lines of proofs:", lines("proofs", "antt", True) + lines("proofs", "antt", False), "of which answers:", answers)
print("clauses:", len(all_clauses))
for most in (120, 200, 300):
    long = [is_told for it, is_told in all_clauses if len(it) > most]
    print(f"clauses over {most} columns:", len(long), "of which a comment says why:", sum(long))
print("longest clause:", max(len(it) for it, _ in all_clauses))
lists = [count for crate in crates for text in texts(crate, "src", "rt") for count in argument_lists(text)]
print("longest argument list:", max(lists), "lists of more than six:", sum(count > 6 for count in lists))
print("citations of lower crates' lemmas:", len(cited), "of modules:", len({module for _, module in cited}))
modules = [
    f"{crate}::{path.stem}" for crate in crates for path in sorted((top / "crates" / crate / "src").rglob("*.rt"))
    if path.stem in below(crate)
]
print("modules with the name of a crate below, which `rt ci` refuses:", ", ".join(modules) or "none")
print("crates:", len(crates), "depth:", max(map(depth, crates)))
pages = [top / "README.md", *sorted((top / "docs").glob("*.md"))]
for most in (30, 40):
    found = [f"{page.name} {count}" for page in pages if (count := long_sentences(page, most))]
    print(f"sentences over {most} words:", ", ".join(found) or "none")
