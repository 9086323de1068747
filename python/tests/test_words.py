"""What the package says twice is the same: refusals' words and the version."""

from __future__ import annotations

import re

import citternblaze as cb
from conftest import ROOT


def test_the_words_of_refusals_are_the_header_s() -> None:
    header = (ROOT / "include/citternblaze.h").read_text()
    table = header[header.index("static const char *const text[]") :].split("};", 1)[0]
    texts = [
        "".join(re.findall(r'"([^"]*)"', entry)) for entry in re.findall(r'((?:"[^"]*"\s*)+)', table)
    ]
    assert dict(enumerate(texts[1:], 1)) == cb.TEXTS


def test_the_version_is_the_repository_s() -> None:
    assert cb.__version__ == (ROOT / "VERSION").read_text().strip()
