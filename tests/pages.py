"""What the documents have to be, besides that their examples run: links lead somewhere, each program of examples/ is run by its
page, the tests that a page names are there, the table of crates is that of tests/crates.py, no page is longer than BOUNDS say, each says
first for whom it is, and none has the words of tests/plain_words.py.
"""
import glob
import os
import re

import crates
import plain_words

TOP = os.path.dirname(os.path.dirname(os.path.realpath(__file__)))


# The most bytes of a page, and of docs/ with the README and CONTRIBUTING together.
BOUNDS = {
    "CONTRIBUTING.md": 4_608,
    "README.md": 7_680,
    "bench/README.md": 12_032,
    "crates/sig_tool/README.md": 4_096,
    "examples/README.md": 9_216,
    "tools/README.md": 20_480,
    "docs/DECISIONS.md": 15_360,
    "docs/architecture.md": 8_704,
    "docs/clocks.md": 14_336,
    "docs/errors.md": 28_672,
    "docs/formats.md": 20_480,
    "docs/from-lustre.md": 10_496,
    "docs/gate-costs.md": 4_096,
    "docs/gate.md": 4_608,
    "docs/glossary.md": 5_120,
    "docs/idioms.md": 9_984,
    "docs/language.md": 13_056,
    "docs/limits.md": 7_680,
    "docs/meaning.md": 8_064,
    "docs/proofs.md": 7_040,
    "docs/shipping.md": 22_528,
    "docs/signal.md": 28_672,
    "docs/spreading.md": 15_360,
    "docs/threads.md": 8_704,
    "docs/top-call.md": 4_096,
    "docs/tutorial.md": 25_344,
}
TOGETHER = 288_000


def documents():
    """The documents whose examples are run, by their names below the top."""
    found = ["README.md", "CONTRIBUTING.md", "examples/README.md", "tools/README.md", "bench/README.md"]
    found += sorted(os.path.relpath(it, TOP) for it in glob.glob(f"{TOP}/docs/*.md"))
    return [it for it in found if os.path.isfile(f"{TOP}/{it}")]


def text_of(path):
    """The text of a file; nothing where there is none."""
    if not os.path.isfile(path):
        return ""
    with open(path, encoding="utf-8") as it:
        return it.read()


def anchor(heading):
    """The name under which a heading of a page is found."""
    return re.sub(r"[^\w\- ]", "", heading.lower()).replace(" ", "-")


def headings_of(path):
    """The names of a page's headings; lines inside fences are none."""
    text = re.sub(r"^ *```.*?^ *```$", "", text_of(path), flags=re.M | re.S)
    return {anchor(it) for it in re.findall(r"^#+ (.*)$", text, flags=re.M)}


def broken_links():
    """The links of the documents and of the crates' pages that lead nowhere: (page, target)."""
    for page in [*documents(), *sorted(os.path.relpath(it, TOP) for it in glob.glob(f"{TOP}/crates/*/README.md"))]:
        text = re.sub(r"^ *```.*?^ *```$", "", text_of(f"{TOP}/{page}"), flags=re.M | re.S)
        for target in re.findall(r"\]\(([^)\s]+)\)", text):
            file, _, name = target.partition("#")
            path = os.path.normpath(os.path.join(TOP, os.path.dirname(page), file)) if file else f"{TOP}/{page}"
            is_page = path.endswith(".md")
            if "://" not in target and (not os.path.exists(path) or name and is_page and name not in headings_of(path)):
                yield page, target


def unnamed_examples():
    """The programs of examples/ that no command of their README names."""
    text = text_of(f"{TOP}/examples/README.md")
    return [it for it in sorted(os.listdir(f"{TOP}/examples")) if it.endswith(".sig") and f"examples/{it}" not in text]


def missing_tests():
    """The tests and files of rows that the page of sig_tests_tool names and that are not there: (place, name)."""
    page = text_of(f"{TOP}/crates/sig_tests_tool/README.md")
    for row in re.findall(r"^\| .* \| (.*) \|$", page, flags=re.M):
        crate = "sig_tests_tool"
        for word in re.findall(r"`([a-z]\w*(?:(?:::|/)\w+)?)`", row):
            module, _, name = word.partition("::")
            if word.startswith("sig_tests_"):
                crate = word
            elif name and f"#[test]\nfn {name}(" not in text_of(f"{TOP}/crates/{crate}/src/tests/{module}.rt"):
                yield crate, word
            elif not name and crate == "sig_tests_tool" and not os.path.isfile(f"{TOP}/tests/rows/{word}.txt"):
                yield "tests/rows", word


def long_pages():
    """The pages that have more bytes than their bound, or none: (page, bytes, bound); and what is bounded together."""
    sizes = {it: os.path.getsize(f"{TOP}/{it}") for it in {*documents(), *BOUNDS} if os.path.isfile(f"{TOP}/{it}")}
    sizes["together"] = sum(size for it, size in sizes.items() if it.startswith("docs/") or it in ("README.md", "CONTRIBUTING.md"))
    bounds = {**BOUNDS, "together": TOGETHER}
    return [(it, size, bounds.get(it, 0)) for it, size in sorted(sizes.items()) if size > bounds.get(it, 0)]


def faults():
    """What is wrong with the pages: (page, why)."""
    for it, size, bound in long_pages():
        yield it, f"{size} bytes, and at most {bound} are wanted (BOUNDS of tests/pages.py)"
    if not crates.is_right():
        yield "docs/architecture.md", "its table is not that of the crates' heads: tests/crates.py --write"
    for it in unnamed_examples():
        yield "examples/README.md", f"no command names examples/{it}"
    for page, target in broken_links():
        yield page, f"this link leads nowhere: {target}"
    for page in documents():
        for line, word, instead in plain_words.odd_words(text_of(f"{TOP}/{page}")) if page not in plain_words.PAGES_LEFT else ():
            yield f"{page}:{line}", f"`{word}`: write plain English, as {instead} (tests/plain_words.py)"
        if page not in plain_words.PAGES_LEFT and not plain_words.says_for_whom(text_of(f"{TOP}/{page}")):
            yield page, "its first sentence does not say for whom the page is: begin with For"
    for place, test in missing_tests():
        yield "crates/sig_tests_tool/README.md", f"there is no {test} in {place}"
