"""What changed since an earlier state, each over its own background."""

import json
from collections.abc import Callable

from conftest import Answer, Write, stanza

from debcheck_tools.index import Index
from debcheck_tools.index_files import open_index
from debcheck_tools.program import Program

Archive = Callable[..., Answer]

SIX = stanza("python3-six", "1.17.0-3")
OLD = (
    SIX
    + stanza("a", Depends="python3-six (>= 1.10)")
    + stanza("b", Depends="python3-six")
    + stanza("c", Depends="gone")
)
NEW = OLD.removeprefix(SIX).replace("Depends: gone", "Depends: gone, away") + stanza("d", Depends="nothing")


def test_what_is_new_and_what_met_it_before(archive: Archive, write: Write) -> None:
    answer = archive("check", write("new", NEW), "--since", write("old", OLD))
    assert answer.status == 1
    assert answer.lines() == [
        "3 of 4 packages newly can't be installed; 2 things are wrong.",
        "Freed of broken  what is missing, or in conflict  sources that need it  [what stands near]",
        "2 of 2  python3-six (>= 1.10)                 a, b  [was: python3-six 1.17.0-3]",
        "1 of 1  nothing                               d",
        "Broken before, and now by more (1):",
        "Freed of broken  what is missing, or in conflict  sources that need it  [what stands near]",
        "1 of 1  away                                  c",
    ]


def test_mended_and_gone(archive: Archive, write: Write) -> None:
    old = stanza("a", Depends="x") + stanza("b", Depends="x") + stanza("c", Depends="x")
    answer = archive("check", write("new", stanza("a") + stanza("c", "2", Depends="x")), "--since", write("old", old))
    assert answer.status == 0
    assert answer.lines() == [
        "0 of 2 packages newly can't be installed; 0 things are wrong.",
        "Mended (1): a 1",
        "Gone (1): b 1",
    ]


def test_since_itself(archive: Archive, write: Write) -> None:
    path = write("new", NEW)
    assert archive("check", path, "--since", path).status == 0


def test_what_a_background_broke_is_news(archive: Archive, write: Write) -> None:
    front, now, then = (
        write("front", stanza("a", Depends="b")),
        write("now", stanza("x")),
        write("then", stanza("b", "7")),
    )
    same = archive("check", front, "--bg", now, "--since", front)
    assert same.status == 0
    answer = archive("check", front, "--bg", now, "--since", front, "--since-bg", then)
    assert answer.status == 1 and answer.lines()[2] == "1 of 1  b                                     a  [was: b 7]"


def test_json(archive: Archive, write: Write) -> None:
    found = json.loads(archive("check", "--format", "json", write("new", NEW), "--since", write("old", OLD)).out)
    assert (found["newly-broken"], found["broken"], found["mended"], found["gone"]) == (3, 4, [], [])
    assert [wrong["names"] for wrong in found["wrongs"]] == [["python3-six"], ["nothing"]]
    assert found["wrongs"][0]["was"] == [{"package": "python3-six", "version": "1.17.0-3", "source": "python3-six"}]
    assert [wrong["names"] for wrong in found["further"]] == [["away"]]


def test_it_is_what_the_program_says_since_an_index(archive: Archive, write: Write) -> None:
    """Over one background the program's own comparison is the measure."""
    old = OLD + stanza("e", Depends="x") + stanza("f", Depends="x") + stanza("g", Depends="x") + stanza("g", "2")
    new = NEW + stanza("e", "3") + stanza("g", "2") + stanza("h", Depends="a")
    one, two = write("new", new), write("old", old)
    found = json.loads(archive("check", "--format", "json", one, "--since", two).out)
    report = Program().check("amd64", Index([open_index(one)]), None, ["--since", two])
    names = {package["package"] for package in report.read()}
    assert names == {member["package"] for wrong in found["wrongs"] for member in wrong["broken"]}
    for word in ("mended", "gone"):
        told = [(member["package"], member["version"]) for member in found[word]]
        assert told == [(member["package"], member["version"]) for member in report.rest[word]]


def test_checkonly_of_what_the_earlier_state_lacks(archive: Archive, write: Write) -> None:
    new, old = write("new", NEW), write("old", OLD)
    assert archive("check", new, "--since", old, "--checkonly", "d").lines()[0].startswith("1 of 1")
    assert archive("check", new, "--since", old, "--checkonly", "c").lines()[0].startswith("0 of 1")


def test_slips(archive: Archive, write: Write) -> None:
    new, arm = write("new", NEW), write("arm", stanza("a", architecture="arm64"))
    for words, status, says in (
        (["--since-bg", new], 64, "--since-bg needs --since"),
        (["--since", arm, "--arch", "amd64"], 65, "arm: has packages of arm64, none of amd64"),
        (["--since", write("empty", "")], 65, "empty: is empty"),
    ):
        answer = archive("check", new, *words)
        assert (answer.status, answer.out) == (status, "") and says in answer.err
