#!/usr/bin/env python3
"""Makes the pages of a package say what is so there: package_pages.py FOLDER

FOLDER has the pages and examples as they lie in the repository. What stands between <!-- repository: begin --> and
<!-- repository: end --> is left out, and so is a row of a table that begins with a link to what isn't in the folder;
of another such link only the words stay. The licence stands in the file `copyright`.
"""

import pathlib
import re
import sys

BEGIN, END = "<!-- repository: begin -->", "<!-- repository: end -->"
MARKED = re.compile(f"^{BEGIN}\n.*?{END}\n+|{BEGIN}.*?{END}", re.DOTALL | re.MULTILINE)
LINK = re.compile(r"\[([^][]*)\]\(([^)#\s]+)(?:#[^)\s]*)?\)")


def is_dead(page, link):
    """Whether a link leads to a file that isn't there."""
    return not re.match(r"[a-z]+:", link.group(2)) and not (page.parent / link.group(2)).exists()


def packaged(page, text):
    """The text of a page as it stands in the package."""
    lines = MARKED.sub("", text.replace("[LICENSE](LICENSE)", "[copyright](copyright)")).split("\n")
    first_links = [LINK.match(line, 2) if line.startswith("| ") else None for line in lines]
    lines = [line for line, first in zip(lines, first_links) if not (first and is_dead(page, first))]
    return LINK.sub(lambda link: link.group(1) if is_dead(page, link) else link.group(), "\n".join(lines))


for page in pathlib.Path(sys.argv[1]).rglob("*.md"):
    page.write_text(packaged(page, page.read_text(encoding="utf-8")), encoding="utf-8")
