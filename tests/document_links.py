#!/usr/bin/env python3
"""tests/document_links.py [FOLDER]: whether the links of the documents lead somewhere.

In each Markdown file that git tracks in FOLDER, by default this repository, a link to a file names a tracked file or
folder there, and a link to a heading, here or in another page, names one that the page has, spelled like GitHub spells
it. Links to the web aren't followed. Code is skipped, but for addresses that `curl` fetches: they have only characters
that servers accept, and if the answer is stored as bytes, an error isn't stored in its place."""

from __future__ import annotations

import pathlib
import re
import subprocess
import sys
import urllib.parse

ROOT = pathlib.Path(__file__).resolve().parent.parent
FENCE = re.compile(r"^(`{3,}|~{3,}).*?^\1`*$", re.MULTILINE | re.DOTALL)
CODE = re.compile(r"(`+)(?!`).*?(?<!`)\1(?!`)", re.DOTALL)
# An image has the same form behind its !
LINK = re.compile(r"\]\(<?([^()\s<>]*(?:\([^()\s]*\)[^()\s<>]*)*)>?(?:\s+\"[^\"]*\")?\)")
HEADING = re.compile(r"^#{1,6} +(.*?)(?: +#+)?$", re.MULTILINE)
NAMED = re.compile(r"<a (?:id|name)=\"([^\"]+)\">")

FETCH = re.compile(r"^curl (.*)$", re.MULTILINE)
# (RFC 3986, and $ for a variable of the shell)
ADDRESS = re.compile(r'"(?:https?://|\$NODE)([^"]*)"')
REFUSED = re.compile(r"[^\w$\-.~:/?#\[\]@!&'()*+,;=%]", re.ASCII)
FAILS = re.compile(r"(?:^| )-[a-zA-Z]*f[a-zA-Z]* ")


def anchor_of(heading: str) -> str:
    """A heading as a fragment: lower case, without punctuation, with a hyphen for each space."""
    text = re.sub(r"!?\[([^\]]*)\]\([^)]*\)", r"\1", heading).replace("`", "")
    return re.sub(r"[^\w\- ]", "", text.lower()).replace(" ", "-")


def anchors(text: str) -> set[str]:
    """What a link can name in a page. The second of equal headings has -1 at its end, and so on."""
    counts: dict[str, int] = {}
    found = set(NAMED.findall(text))
    for heading in HEADING.findall(FENCE.sub("", text)):
        anchor = anchor_of(heading)
        number = counts.get(anchor, 0)
        counts[anchor] = number + 1
        found.add(f"{anchor}-{number}" if number else anchor)
    return found


def links(text: str) -> list[str]:
    return LINK.findall(CODE.sub("`code`", FENCE.sub("", text)))


def is_wrong_fetch(command: str) -> bool:
    """Whether a server refuses the address, or bytes are stored that are an error's."""
    addresses = ADDRESS.findall(command)
    stores_bytes = command.endswith(".bin")
    return not addresses or any(map(REFUSED.search, addresses)) or (stores_bytes and not FAILS.search(command))


class Pages:
    """The files that git tracks in a folder, and the links of its pages."""

    def __init__(self, top: pathlib.Path) -> None:
        listed = subprocess.run(["git", "ls-files", "-z"], cwd=top, stdout=subprocess.PIPE, check=True).stdout
        self.top, self.files = top, set(listed.decode().split("\0")) - {""}
        self.folders = {str(parent) for name in self.files for parent in pathlib.PurePath(name).parents}
        self.texts = {name: (top / name).read_text(encoding="utf-8") for name in self.files if name.endswith(".md")}

    def is_wrong(self, page: str, link: str) -> bool:
        address = urllib.parse.urlsplit(link)
        if address.scheme or address.netloc:
            return False
        target = page
        if address.path:
            path = self.top / pathlib.PurePath(page).parent / urllib.parse.unquote(address.path)
            if not path.resolve().is_relative_to(self.top):
                return True
            target = str(path.resolve().relative_to(self.top))
        if not address.fragment:
            return target not in self.files | self.folders
        return urllib.parse.unquote(address.fragment) not in anchors(self.texts.get(target, ""))

    def wrong(self) -> list[str]:
        return [
            f"{page}: {link}"
            for page, text in sorted(self.texts.items())
            for link in links(text)
            if self.is_wrong(page, link)
        ]

    def wrong_fetches(self) -> list[str]:
        fetches = [(page, command) for page, text in sorted(self.texts.items()) for command in FETCH.findall(text)]
        if not fetches:
            return ["no page fetches anything"]
        return [f"{page}: curl {command}" for page, command in fetches if is_wrong_fetch(command)]


def main() -> int:
    pages = Pages(pathlib.Path(sys.argv[1] if sys.argv[1:] else ROOT).resolve())
    count = sum(len(links(text)) for text in pages.texts.values())
    wrong = pages.wrong()
    fetches = pages.wrong_fetches()
    for link in wrong:
        print(f"links: FAILED: {link} leads nowhere")
    for fetch in fetches:
        print(f"links: FAILED: {fetch}: a server refuses the address, or its error is stored")
    if not count:
        print("links: FAILED: there is no link")
    print(f"links: {count} in {len(pages.texts)} pages, {len(wrong)} of them wrong")
    return 1 if wrong or fetches or not count else 0


if __name__ == "__main__":
    sys.exit(main())
