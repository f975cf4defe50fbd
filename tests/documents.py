#!/usr/bin/env python3
"""The documents are short enough to be read: each page within its words, all pages together, and no sentence over 45 words.
And what they name is there: each file of the repository, a word of it, and each page that a link leads to. Prints what is wrong, and ends
with status 1 where something is. With names of pages it looks at these alone."""
import pathlib
import re
import sys

ROOT = pathlib.Path(__file__).resolve().parent.parent
# The most words of each page, and of all together.
MOST = {
    "README.md": 900,
    "CHANGELOG.md": 600,
    "CONTRIBUTING.md": 3500,
    "docs/ARCHITECTURE.md": 1800,
    "docs/CASES.md": 1500,
    "docs/DECISIONS.md": 3500,
    "docs/FORMATS.md": 4500,
    "docs/MARKET_MODEL.md": 3200,
    "docs/PERFORMANCE.md": 2500,
    "docs/PROMISES.md": 3000,
    "docs/TESTED.md": 1800,
    "docs/TWO_DAYS.md": 1500,
    "docs/WHOLE_DAY.md": 1500,
    "docs/WRONG_VARIANTS.md": 1500,
}
MOST_IN_ALL = 28_000
LONGEST_SENTENCE = 45
# What is no file of the repository, though it is named as one: files that a build makes, and names that stand for any.
MADE = ("out/",)
STANDS_FOR = ("/out/", "NAME")
FILES = re.compile(r"`((?:crates|dev|dist|docs|examples|tests)/[A-Za-z0-9_./-]+)`")
# A word of a file or a folder.
WORDS = re.compile(r"`([A-Za-z_:]+)` in `(crates/[A-Za-z0-9_./-]+)`")
LINKS = re.compile(r"\]\(([^)#]+)(?:#[^)]*)?\)")
# Where a sentence ends: not behind a number of a list, and not inside code.
ENDS = re.compile(r"(?<=[.!?:])\s+(?=[A-Z`*\"(])")


def blocks_of(text):
    """The paragraphs, list items and fields of tables of a page, without what stands in fences or is indented as code."""
    block = []
    fenced = False
    for line in [*text.splitlines(), ""]:
        if line.startswith("```"):
            fenced = not fenced
            line = ""
        if fenced or line.startswith("    "):
            line = ""
        is_item = re.match(r"\s*(?:[-*]|\d+\.)\s+", line)
        if block and (not line.strip() or line[0] in "|#" or is_item):
            yield " ".join(block)
            block = []
        if line.startswith("|"):
            yield from (field.strip() for field in re.split(r"(?<!\\)\|", line.strip("|")))
        elif line.strip() and not line.startswith("#"):
            block.append(line[is_item.end() :] if is_item else line.strip())


def sentences_of(text):
    for block in blocks_of(text):
        yield from ENDS.split(block)


def has_word(place, word):
    """Whether a file has a word, or a folder a file that has it or is called so."""
    paths = [place] if place.is_file() else [path for path in place.rglob("*") if path.is_file() and "out" not in path.relative_to(ROOT).parts]
    found = re.compile(rf"\b{re.escape(word.rpartition('::')[2])}\b")
    return any(found.search(f"{path.stem}\n{path.read_text(encoding='utf-8', errors='replace')}") for path in paths)


def faults_of(page, text):
    words = len(text.split())
    if words > MOST.get(page, 0):
        yield f"it has {words} words, and {MOST.get(page, 0)} are the most"
    for sentence in sentences_of(text):
        count = len(sentence.split())
        if count > LONGEST_SENTENCE:
            yield f"a sentence of {count} words: {' '.join(sentence.split()[:12])} .."
    here = (ROOT / page).parent
    named = [(ROOT, name) for name in FILES.findall(text)] + [(here, name) for name in LINKS.findall(text) if "://" not in name]
    for folder, name in named:
        if not name.startswith(MADE) and not any(it in name for it in STANDS_FOR) and not (folder / name).exists():
            yield f"it names {name}, which isn't there"
    for word, name in WORDS.findall(text):
        if (ROOT / name).exists() and not has_word(ROOT / name, word):
            yield f"it names {word} in {name}, which hasn't it"


def main():
    pages = {str(path.relative_to(ROOT)): path.read_text(encoding="utf-8") for path in [*ROOT.glob("*.md"), *ROOT.glob("docs/*.md")]}
    wanted = sys.argv[1:] or sorted(pages)
    faults = [f"{page}: {fault}" for page in wanted for fault in faults_of(page, pages[page])]
    in_all = sum(len(text.split()) for text in pages.values())
    if not sys.argv[1:] and in_all > MOST_IN_ALL:
        faults.append(f"all pages have {in_all} words, and {MOST_IN_ALL} are the most")
    for fault in faults:
        print(f"documents: {fault}")
    return 1 if faults else 0


sys.exit(main())
