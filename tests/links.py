"""The links of the pages: a relative link leads to a file that there is, and to a heading of it where it names one.

Looked up are the links of each page, each page of docs/ that any text of the repository names, and each heading that stands in
quotes behind a page, as in README.md, "Layout".
"""
import os
import re

LINK = re.compile(r"\[[^\]]*\]\((?!https?:)([^)\s]*)\)")
NAMED = re.compile(r"(?<!\]\()\bdocs/(?:changes/)?[A-Z][\w-]*\.md(?:#[\w-]+)?")
QUOTED = re.compile(r"\b((?:docs/)?[A-Z][A-Z-]*\.md)\)?, \"([^\"]+)\"")
BLOCK = re.compile(r"^```.*?^```$", re.MULTILINE | re.DOTALL)
LEFT_OUT = (".git", "target", "__pycache__")


def texts(root):
    """Every text of the repository, by its path."""
    for folder, below, files in os.walk(root):
        below[:] = sorted(name for name in below if name not in LEFT_OUT)
        for path in filter(os.path.isfile, (os.path.join(folder, name) for name in sorted(files))):
            try:
                with open(path, encoding="utf-8") as file:
                    yield os.path.relpath(path, root), file.read()
            except (UnicodeDecodeError, FileNotFoundError):  # no text, so it names no page; or another test's, and gone again
                continue


def headings(page):
    return re.findall(r"^#+ (.*)$", BLOCK.sub("", page), re.MULTILINE)


def anchor(heading):
    """What leads to a heading, as GitHub makes it."""
    return re.sub(r"[^\w -]", "", heading.lower()).replace(" ", "-")


def leads(pages, path, link):
    """Whether a link of the text at a path leads somewhere. An empty file is the page itself."""
    file, _, place = link.partition("#")
    target = os.path.normpath(os.path.join(os.path.dirname(path), file)) if file else path
    if not place:
        return target in pages or any(known.startswith(target + "/") for known in pages)
    return place in map(anchor, headings(pages.get(target, "")))


def looked_up(root):
    """Each link of each text: where it stands, what it says, and whether it leads somewhere."""
    pages = dict(texts(root))
    for path, text in pages.items():
        prose = BLOCK.sub("", text) if path.endswith(".md") else ""
        for link in LINK.findall(prose):
            yield path, link, leads(pages, path, link)
        for name in NAMED.findall(text):
            yield path, name, leads(pages, "", name)
        for page, heading in QUOTED.findall(re.sub(r"\s*\n[\s*#/-]*", " ", text)):
            known = [headings(pages[at]) for at in (page, os.path.join("docs", page)) if at in pages]
            yield path, f'{page}, "{heading}"', any(heading in names for names in known)
