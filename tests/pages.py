"""The code blocks of a page in docs/."""
import os
import re

ROOT = os.path.dirname(os.path.dirname(os.path.abspath(__file__)))

_BLOCK = re.compile(r"^```(\w+)\n(.*?)^```$", re.MULTILINE | re.DOTALL)


def blocks(page, language):
    """The code blocks in that language, as they stand."""
    with open(os.path.join(ROOT, "docs", page), encoding="utf-8") as file:
        return [text for name, text in _BLOCK.findall(file.read()) if name == language]


def block(page, language):
    """The one code block in that language."""
    (only,) = blocks(page, language)
    return only
