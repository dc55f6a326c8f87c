"""The layout is dose's, and YAML libraries read it back."""

import yaml

from debcheck_tools.dose_yaml import Node, lines_of

TREE: Node = {
    "output-version": "1.2",
    "count": 3,
    "pkg": {"package": "a", "version": "1:2-3", "depends": "b:amd64 (>= 1) | c"},
    "chains": [{"depchain": [{"package": "a"}, {"package": "b", "more": {"deep": "x"}}]}, {"depchain": []}],
    "empty": {},
}

TEXT = """\
output-version: 1.2
count: 3
pkg:
 package: a
 version: 1:2-3
 depends: b:amd64 (>= 1) | c
chains:
 -
  depchain:
   -
    package: a
   -
    package: b
    more:
     deep: x
 -
  depchain:
empty:
"""


def test_layout() -> None:
    assert "".join(line + "\n" for line in lines_of(TREE)) == TEXT


def test_lines_stand_where_they_are_led() -> None:
    assert lines_of({"package": "a", "reasons": [{"missing": {"pkg": {"package": "b"}}}]}, "  ") == [
        "  package: a",
        "  reasons:",
        "   -",
        "    missing:",
        "     pkg:",
        "      package: b",
    ]


def test_read_back() -> None:
    read = yaml.load(TEXT, yaml.BaseLoader)
    assert read["pkg"] == TREE["pkg"]
    assert [one["package"] for one in read["chains"][0]["depchain"]] == ["a", "b"]
    assert yaml.safe_load(TEXT)["count"] == 3 and yaml.safe_load(TEXT)["empty"] is None
