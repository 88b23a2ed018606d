"""Links from a page of the repository to another."""
import os
import re

LINK = re.compile(r"(?<!!)\[[^\]\n]*\]\(([^)\s]+)\)")
HEADING = re.compile(r"^#+ +(.+?) *$", re.M)
NAMED = re.compile(r"<a (?:id|name)=\"([^\"]+)\"")
FENCED = re.compile(r"^```.*?^```", re.M | re.S)


def anchors(text):
    """The anchors that a page names, and those of its headings, as a code host makes them: of two that are alike the second gets `-1`."""
    made, seen = set(NAMED.findall(text)), {}
    for heading in HEADING.findall(FENCED.sub("", text)):
        anchor = re.sub(r"[^\w\- ]", "", heading.lower()).replace(" ", "-")
        count = seen.get(anchor, 0)
        seen[anchor] = count + 1
        made.add(f"{anchor}-{count}" if count else anchor)
    return made


def text_at(path):
    """The text of a page."""
    with open(path, encoding="utf-8") as file:
        return file.read()


def wrong_links(top, paths):
    """A result for each link to a page: whether it leads to a file that is there, and to a heading of it, and what to say if not."""
    for page in (path for path in paths if path.endswith(".md")):
        for target in LINK.findall(FENCED.sub("", text_at(f"{top}/{page}"))):
            path, _, anchor = target.partition("#")
            if "://" in target or target.startswith("mailto:"):
                continue
            to = os.path.normpath(f"{top}/{os.path.dirname(page)}/{path}") if path else f"{top}/{page}"
            is_right = os.path.exists(to) and (not anchor or anchor in anchors(text_at(to)))
            yield is_right, f"{page}: the link {target} leads nowhere"
