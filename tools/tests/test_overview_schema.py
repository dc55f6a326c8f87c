"""Documents are of the form that docs/overview.schema.json describes, and their lines of at most 100 columns."""

import json
from collections.abc import Callable
from pathlib import Path

import jsonschema  # type: ignore[import]
import pytest
from conftest import Answer, Write, stanza

Archive = Callable[..., Answer]

SCHEMA = json.loads((Path(__file__).parents[2] / "docs" / "overview.schema.json").read_text())
LONG = "librust-a-name-that-is-long-enough-to-be-cut-0.12+default-dev"
PACKAGES = (
    stanza("a", Source="a-source-with-a-long-name", Depends=f"{LONG} (>= 1), x | y")
    + stanza("b", "2", Depends="a", Conflicts="c")
    + stanza("c", Depends="b, l (= 1), m", Maintainer="C <c@x>")
    + stanza("l", "1")
    + stanza("l", "2")
    + stanza("m", Depends="l (= 2)")
    + stanza("n", Provides=LONG.replace("0.12", "0.13"))
    + stanza("o", Depends="m, l (= 1)")
)
SOURCES = "Package: s\nBinary: x, z\nVersion: 1\nArchitecture: any\nFormat: 1.0\nDirectory: s\nBuild-Depends: x, a\n"


@pytest.mark.parametrize(
    "words",
    [
        ["--built-by", "SOURCES"],
        ["--sources", "SOURCES"],
        ["--since", "OLD"],
        ["--since", "OLD", "--since-bg", "PACKAGES"],
        ["--by", "source"],
        ["--by", "maintainer"],
        ["--latest"],
    ],
    ids=" ".join,
)
def test_documents_and_lines(archive: Archive, write: Write, words: list[str]) -> None:
    old = stanza("a", Depends="gone") + stanza("g", Depends="gone") + stanza("l") + stanza("x")
    files = {"SOURCES": SOURCES, "OLD": old, "PACKAGES": PACKAGES}
    given = [
        "check",
        write("PACKAGES", PACKAGES),
        *(write(word, files[word]) if word in files else word for word in words),
    ]
    document = json.loads(archive(*given, "--format", "json").out)
    jsonschema.Draft202012Validator(SCHEMA).validate(document)
    lines = archive(*given).lines()
    assert document["wrongs"] and max(map(len, lines)) <= 100


def test_the_schema_refuses_other_documents(archive: Archive, write: Write) -> None:
    document = json.loads(archive("check", write("PACKAGES", PACKAGES), "--format", "json").out)
    validator = jsonschema.Draft202012Validator(SCHEMA)
    wrong = document["wrongs"][0]
    spoiled = [
        {**document, "format": 2},
        {key: value for key, value in document.items() if key != "asked"},
        {**document, "mended": []},
        {**document, "wrongs": [{**wrong, "between": ["a", "b"]}]},
        {**document, "wrongs": [{**wrong, "broken": [{"package": "a"}]}]},
    ]
    assert [validator.is_valid(other) for other in (document, *spoiled)] == [True] + [False] * 5
