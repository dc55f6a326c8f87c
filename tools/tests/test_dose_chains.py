"""Ways over the needs of a core are shortest ones, and each of its faults stands once."""

from debcheck_tools.dose_chains import Chains, Conflict, Json, Member, Missing, Step


def member(name: str, version: str = "1") -> Json:
    return {"package": name, "version": version}


def need(name: str, relation: str, *met_by: str) -> Json:
    return {"kind": "depends", **member(name), "relation": relation, "met-by": [member(one) for one in met_by]}


def lack(name: str, relation: str) -> Json:
    return {"kind": "missing", **member(name), "relation": relation, "alternatives": [relation]}


def way(chains: Chains, name: str) -> list[tuple[str, str]]:
    return [(step.member[0], step.relation) for step in chains.way((name, "1"))]


ROOT: Member = ("r", "1")


def test_the_shortest_way_and_not_the_first() -> None:
    core = [need("r", "a", "a"), need("r", "z", "z"), need("a", "b", "b"), need("b", "x", "x"), need("z", "x", "x")]
    assert way(Chains(ROOT, [*core, lack("x", "gone")]), "x") == [("r", "z"), ("z", "x")]


def test_of_ways_as_long_the_first() -> None:
    core = [need("r", "a | b", "a", "b"), need("a", "x", "x"), need("b", "x", "x"), lack("x", "gone")]
    chains = Chains(ROOT, core)
    assert way(chains, "x") == [("r", "a | b"), ("a", "x")]
    assert chains.way(("x", "1"))[0] == Step(ROOT, "a | b")


def test_a_circle_ends() -> None:
    core = [need("r", "a", "a"), need("a", "r | b", "r", "b"), need("b", "a", "a"), lack("b", "gone")]
    assert way(Chains(ROOT, core), "b") == [("r", "a"), ("a", "r | b")]


def test_no_way_to_itself_nor_to_an_essential_package() -> None:
    core = [need("r", "a", "a"), {"kind": "essential", "name": "e"}, need("e", "x", "x"), lack("r", "gone")]
    chains = Chains(ROOT, core)
    assert [way(chains, name) for name in ("r", "e", "x")] == [[], [], []]


def test_what_is_missing() -> None:
    core = [need("r", "a", "a"), lack("r", "b | c"), lack("a", "d (>= 2)")]
    assert list(Chains(ROOT, core).missing()) == [Missing(ROOT, "b | c"), Missing(("a", "1"), "d (>= 2)")]


def test_a_conflict_with_each_package_that_it_hits() -> None:
    hits = [member("a"), member("b", "2")]
    core = [{"kind": "conflict", **member("r"), "field": "Breaks", "relation": "v", "hits": hits}]
    assert list(Chains(ROOT, core).conflicts()) == [Conflict(ROOT, "v", ("a", "1")), Conflict(ROOT, "v", ("b", "2"))]


def test_versions_are_conflicts_two_by_two() -> None:
    core = [{"kind": "versions", "name": "a", "versions": [member("a", version) for version in "123"]}]
    pairs = [(one.member[1], one.other[1], one.relation) for one in Chains(ROOT, core).conflicts()]
    assert pairs == [("1", "2", "a"), ("1", "3", "a"), ("2", "3", "a")]
