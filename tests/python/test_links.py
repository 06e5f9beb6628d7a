"""Each link of a page leads to a file, and to a heading if it names one. Each page that a file names is there.

    python3 -m pytest tests/python/test_links.py
"""

from __future__ import annotations

import pathlib
import re
import subprocess

import pytest

TOP = pathlib.Path(__file__).resolve().parents[2]
LINK = re.compile(r"\]\(([^)\s]+)\)")
NAMED = re.compile(r"\bdocs/(?:internals/)?\w+\.(?:md|png)\b")
FOLDERS = "bench|clients|crates|docs|examples|format|library|man|reference|release|schema|tests|tools|viewer"
FILE = re.compile(rf"`((?:{FOLDERS})/[\w./*-]+)`")
CODE = re.compile(r"^```[\s\S]*?^```$|(?:^ {4}.*\n)+", re.MULTILINE)


def tracked(*patterns: str) -> list[str]:
    listed = subprocess.run(
        ["git", "ls-files", "-co", "--exclude-standard", "--", *patterns], cwd=TOP, stdout=subprocess.PIPE, text=True, check=True
    )
    return [name for name in listed.stdout.splitlines() if (TOP / name).is_file()]


PAGES = tracked("*.md")


def prose(text: str) -> str:
    """A page without its blocks of code."""
    return CODE.sub("", text)


def anchors(page: pathlib.Path) -> set[str]:
    """The anchors of a page's headings, made as GitHub and Gitea make them."""
    found: set[str] = set()
    for heading in re.findall(r"^#+ (.*)$", prose(page.read_text(encoding="utf-8")), re.MULTILINE):
        words = re.sub(r"\[([^]]*)\]\([^)]*\)", r"\1", heading).strip().lower()
        plain = re.sub(r"[^\w\- ]", "", words).replace(" ", "-")
        numbered = (plain if count == 0 else f"{plain}-{count}" for count in range(len(found) + 1))
        found.add(next(anchor for anchor in numbered if anchor not in found))
    return found


def broken(page: str, link: str) -> str | None:
    """Why a link leads nowhere."""
    if re.match(r"https?://|mailto:", link):
        return None
    path, _, anchor = link.partition("#")
    target = (TOP / page).parent / path if path else TOP / page
    if not target.exists():
        return f"{page}: {link}: no such file"
    if anchor and anchor not in anchors(target):
        return f"{page}: {link}: no such heading"
    return None


@pytest.mark.parametrize("page", PAGES)
def test_the_links_of_a_page(page: str) -> None:
    links = LINK.findall(prose((TOP / page).read_text(encoding="utf-8")))
    assert [why for link in links if (why := broken(page, link))] == []


# the release notes, and the descriptions of packages that are installed without the other pages
PLAIN = ("CHANGELOG.md", "clients/python/README.md", "clients/rust/README.md")


@pytest.mark.parametrize("page", [page for page in PAGES if page not in PLAIN])
def test_the_names_of_pages_are_links(page: str) -> None:
    text = re.sub(r"\[[^]]*\]\([^)]*\)", "", prose((TOP / page).read_text(encoding="utf-8")))
    assert re.findall(r"\b[A-Z_]{4,}\.md\b", text) == []


@pytest.mark.parametrize("page", [page for page in PAGES if page != "CHANGELOG.md"])
def test_the_files_that_a_page_names_are_there(page: str) -> None:
    """NAME and CRATE are any name."""
    named = FILE.findall(prose((TOP / page).read_text(encoding="utf-8")))
    assert [name for name in named if not any(TOP.glob(re.sub(r"NAME|CRATE", "*", name).rstrip("/.")))] == []


def test_there_are_links() -> None:
    assert len(PAGES) >= 20
    assert sum(len(LINK.findall(prose((TOP / page).read_text(encoding="utf-8")))) for page in PAGES) >= 100


def test_a_link_that_leads_nowhere_is_found() -> None:
    assert broken("README.md", "docs/NO_PAGE.md") is not None
    assert broken("README.md", "docs/FORMAT.md#no-heading") is not None
    assert broken("README.md", "docs/FORMAT.md") is None


def test_each_page_that_a_file_names_is_there() -> None:
    missing = []
    # a change of what the program and the library are built from makes the release older: these wait for the next one
    built = (":!crates", ":!crates.txt", ":!include/tracehost.h", ":!library")
    for name in tracked(*built, ":!release", ":!*.png", ":!CHANGELOG.md"):
        text = (TOP / name).read_bytes().decode("utf-8", "replace")
        missing += [f"{name}: {page}" for page in NAMED.findall(text) if not (TOP / page).exists()]
    assert [line for line in missing if "NO_PAGE" not in line] == []
