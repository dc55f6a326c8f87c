"""Whether sources can be built, and the sources as packages."""

import json
from collections.abc import Callable

from conftest import Answer, Write, stanza

Archive = Callable[..., Answer]


def source(name: str, version: str = "1", **fields: str) -> str:
    lines = [
        f"Package: {name}",
        f"Binary: {name}",
        f"Version: {version}",
        "Architecture: any",
        "Format: 1.0",
        "Directory: x",
    ]
    return "\n".join([*lines, *(f"{field.replace('_', '-')}: {value}" for field, value in fields.items()), "", ""])


PACKAGES = stanza("build-essential") + stanza("debhelper", "13") + stanza("doc-tool", Depends="gone")
SOURCES = (
    source("good", Build_Depends="debhelper (>= 12)", Build_Conflicts="bad")
    + source("doc", Build_Depends="debhelper", Build_Depends_Indep="doc-tool, other-doc (>= 2) <!nodoc>")
    + source("check", Build_Depends="tester <!nocheck>")
)


def test_the_overview_of_sources(archive: Archive, write: Write) -> None:
    words = ("check", write("Packages", PACKAGES), "--sources", write("Sources", SOURCES))
    assert archive(*words).lines() == [
        "2 of 3 sources can't be built; 3 things are wrong.",
        "Freed of broken  what is missing, or in conflict  sources that need it  [what stands near]",
        "1 of 1  tester                                check",
        "0 of 1  gone                                  doc-tool (leftover)",
        "0 of 1  other-doc (>= 2)                      doc",
    ]
    assert archive(*words, "--profiles", "nocheck,nodoc").lines()[0].startswith("1 of 3 sources")
    assert archive(*words, "--profiles", "nocheck", "--no-indep").status == 0


def test_reasons_name_the_field_and_the_source(archive: Archive, write: Write) -> None:
    words = ("check", write("Packages", PACKAGES), "--sources", write("Sources", SOURCES))
    (wrong, *_) = [
        w for w in json.loads(archive(*words, "--format", "json").out)["wrongs"] if w["names"] == ["other-doc"]
    ]
    assert wrong["sources"] == [
        {
            "source": "doc",
            "packages": [
                {
                    "package": "doc",
                    "version": "1",
                    "type": "source",
                    "field": "Build-Depends-Indep",
                    "relation": "other-doc (>= 2)",
                }
            ],
        }
    ]
    report = json.loads(archive(*words, "--report", "json", "--failures", "--explain", "--all-reasons").out)
    told = {
        (line["package"], line["field"])
        for p in report["report"]
        for core in (p["reasons"], *p["also"])
        for line in core
    }
    assert told == {("doc", "Build-Depends-Indep"), ("doc-tool", "Depends"), ("check", "Build-Depends")}
    assert [(p["package"], p["type"]) for p in report["report"]] == [("doc", "source"), ("check", "source")]
    text = archive(*words, "--report", "text", "--failures", "--explain").out
    assert "  package: src:check\n" in text and "   - missing: src:check 1 Build-Depends: tester\n" in text
    assert "   - missing: src:doc 1 Build-Depends-Indep: other-doc (>= 2)\n" in text and "src_" not in text
    text = archive(*words, "--report", "text", "--failures", "--why", "--all-reasons", "--causes").out
    assert (
        "   - src:check 1 Build-Depends: tester missing\n" in text and "   - src:doc 1\n" in text and "src_" not in text
    )


def test_checkonly_names_sources(archive: Archive, write: Write) -> None:
    words = ("check", write("Packages", PACKAGES), "--sources", write("Sources", SOURCES), "--checkonly")
    assert archive(*words, "good").status == 0
    answer = archive(*words, "chek")
    assert answer.status == 66 and "no source is called 'chek'; similar: check" in answer.err


def test_since(archive: Archive, write: Write) -> None:
    """A source that broke by a change of binaries is news."""
    sources, old = write("Sources", SOURCES), write("old", PACKAGES + stanza("tester", "4"))
    answer = archive("check", write("Packages", PACKAGES), "--sources", sources, "--since", sources, "--since-bg", old)
    assert answer.status == 1
    assert answer.lines()[2] == "1 of 1  tester                                check  [was: tester 4]"


def test_stanzas_for_a_pipe(archive: Archive, write: Write) -> None:
    path = write("Sources", SOURCES + source("good", "0.9"))
    out = archive("sources", path, "--arch", "amd64", "--latest", "--profiles", "nodoc").out
    assert out.count("Package: ") == 3
    good = ["Package: src_good", "Version: 1", "Architecture: all", "Depends: build-essential, debhelper (>= 12)"]
    assert out.splitlines()[:6] == [*good, "Conflicts: bad", ""]
    assert archive("sources", path).status == 64
    assert archive("sources", write("Packages", PACKAGES), "--arch", "amd64").status == 65


def test_a_field_that_cannot_be_read(archive: Archive, write: Write) -> None:
    path = write("Sources", source("s", Build_Depends="b (>="))
    answer = archive("check", write("Packages", PACKAGES), "--sources", path)
    assert (answer.status, answer.out) == (65, "")
    assert answer.err == f"debcheck-archive: {path}: source s 1: Build-Depends can't be read\n"
    name = write("odd", source("s", Build_Depends="b=1"))
    answer = archive("check", write("Packages", PACKAGES), "--sources", name)
    assert answer.status == 65 and f"{name}: source s" in answer.err


def test_what_is_cut_off(archive: Archive, write: Write) -> None:
    """Sources that end in the midst of a line are refused, whatever they are named for."""
    path, packages = write("Sources", SOURCES[: SOURCES.rindex("Directory") + 5]), write("Packages", PACKAGES)
    for words in (["check", packages, "--sources"], ["check", packages, "--built-by"], ["sources", "--arch", "amd64"]):
        answer = archive(*words, path)
        assert (answer.status, answer.out) == (65, "")
        assert answer.err.startswith(f"debcheck-archive: {path}: ") and "it was cut off" in answer.err
