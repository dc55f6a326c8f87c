"""Holds debcheck's reports in JSON against docs/report.schema.json. Started by the script `schema`.

Runs debcheck under all combinations of words on small indexes that have every kind of line, and validates each report. Then it spoils reports,
one thing at a time, each of which the schema has to refuse; and it looks whether each part of the schema was met by some report.
Status 0: all is as it should be. 1: something isn't."""
import copy
import itertools
import json
import os
import subprocess
import sys
import tempfile

import jsonschema

TOP = os.path.dirname(os.path.dirname(os.path.realpath(__file__)))
INDEXES = {
    "empty": "",
    "well": """Package: dictionary
Version: 1:2.0-3~rc1+b1
Architecture: all

Package: speller
Version: 3.2
Architecture: amd64
Depends: dictionary
""",
    "kinds": """Package: app
Version: 1
Architecture: amd64
Pre-Depends: plugin
Depends: lib (= 1)

Package: lib
Version: 1
Architecture: amd64

Package: lib
Version: 2
Architecture: all

Package: lib
Version: 2
Architecture: all

Package: plugin
Version: 1
Architecture: amd64
Depends: lib (= 2)

Package: gui
Version: 4.0
Architecture: amd64
Conflicts: toolkit:any (<< 2:0)

Package: toolkit
Version: 1:4-0
Architecture: amd64
Depends: gui | nothing

Package: breaker
Version: 1
Architecture: amd64
Breaks: widgets

Package: widgets
Version: 2:1.0:1-1
Architecture: amd64
Provides: virtual-widget, other-widget (= 2), other-widget

Package: both
Version: 1
Architecture: amd64
Depends: breaker, widgets

Package: wants
Version: 0~
Architecture: amd64
Depends: other-widget (>= 3) | nothing | virtual-widget (>> 1) | lib:any (>= 7), other-widget2 | nowhere2

Package: plain
Version: 1
Architecture: amd64
Pre-Depends: nowhere

Package: foreign
Version: 1
Architecture: arm64
""",
    "essential": """Package: base
Version: 1
Architecture: amd64
Essential: yes
Depends: init

Package: a
Version: 1
Architecture: all
""",
}
BACKGROUND = """Package: nowhere
Version: 3
Architecture: all

Package: other-widget
Version: 3
Architecture: amd64
"""
EARLIER = """Package: plain
Version: 0
Architecture: amd64
Depends: nothing

Package: left
Version: 1
Architecture: all
Depends: nothing

Package: gui
Version: 3
Architecture: amd64
Depends: nothing
"""
FLAGS = ["--explain", "--failures", "--successes", "--causes", "--all-reasons", "--why", "--ignore-essential"]
OPTIONS = ["explain", "failures", "successes", "ignore-essential", "checkonly", "bg", "since", "causes", "all-reasons", "why"]


def are_taken(words):
    """Whether the words may stand together."""
    tells_of_ok_alone = "--successes" in words and "--failures" not in words
    return not (tells_of_ok_alone and {"--all-reasons", "--why"} & {*words}) and not {"--since", "--successes"} <= {*words}


def reports(folder):
    """Yields the words and the report of each run."""
    for name, text in (("background", BACKGROUND), ("earlier", EARLIER)):
        with open(f"{folder}/{name}", "w", encoding="utf-8") as file:
            file.write(text)
    for name, text in INDEXES.items():
        some = [it.split()[1] for it in text.splitlines() if it.startswith("Package: ") and it != "Package: foreign"][:2]
        more = [[], ["--bg", f"{folder}/background"]], [[], ["--checkonly", ",".join(some), "--workers", "1", "--chunk", "1"]][:1 + bool(some)]
        since = [[], ["--since", f"{folder}/earlier"]][:1 + bool(some)]
        for chosen in itertools.product(*[[[], [it]] for it in FLAGS], *more, since):
            words = ["--arch", "amd64", "--format", "json", *sum(chosen, [])]
            if not are_taken(words):
                continue
            ran = subprocess.run([f"{TOP}/debcheck", *words], input=text.encode(), capture_output=True, check=False)
            if ran.returncode not in (0, 1):
                sys.exit(f"schema: {' '.join(words)} on {name}: status {ran.returncode}: {ran.stderr.decode()}")
            yield f"{' '.join(words)} on {name}", json.loads(ran.stdout)


def places(value, path=()):
    """Yields the path of each object and each list of a document."""
    if isinstance(value, (dict, list)):
        yield path
        for key, inner in value.items() if isinstance(value, dict) else enumerate(value):
            yield from places(inner, (*path, key))


def at(value, path):
    for key in path:
        value = value[key]
    return value


# A list may be empty where this is its key, but for those of a walk.
MAY_BE_EMPTY = {"options", "report", "mended", "gone", "also", "causes", "needed-by", "hits", "versions", "present", "similar"}
OF_A_WALK = {"met-by", "hits", "versions", "alternatives"}
COUNTS = ("stanzas", "skipped", "duplicates", "background", "asked", "broken", "newly-broken", "frees")
OTHERS = {
    "package": ["", "-a", "a b", 1, None], "name": ["", "+a", 2], "version": ["", "1_2", "1-", ":1", "a:1", "1:", 1.0],
    "architecture": ["", "a b", None], "status": ["Ok", "", "unknown"], "kind": ["missed", "", 1], "field": ["Recommends", "depends", "Provides"],
    "relation": ["", "b |", "b (1)", "b (< 1)", "b, c", "b  | c", ["b"]], "packages": [0, -1, "1", 1.5],
    "format": [0, 1, "2", None], "further": [0, "1", 0.5, None], **{it: [-1, "1", 0.5, None] for it in COUNTS},
}


def may_go(key):
    """Whether a document stays a report without the key of an object."""
    return key in ("provides", "further")


def spoiled_options(document):
    """Yields what is spoiled and a document with just that spoiled among its options."""
    options = document["options"]
    explained = [it for it in document["report"] if "reasons" in it]
    tied = {"explain": document["report"], "all-reasons": explained, "why": explained, "causes": True, "bg": True, "since": True}
    for option in options:
        if tied.get(option):
            yield f"options without {option}", {**document, "options": [it for it in options if it != option]}
        yield f"options with {option} twice", {**document, "options": [*options, option]}
    for option in [it for it in ("causes", "bg", "since", "workers") if it not in options]:
        yield f"options with {option}", {**document, "options": [*options, option]}


def spoiled(document):
    """Yields what is spoiled and a document with just that spoiled."""
    yield from spoiled_options(document)
    for path in places(document):
        value = at(document, path)
        where = "/".join(map(str, path)) or "the document"

        def change(how, path=path):
            other = copy.deepcopy(document)
            how(at(other, path))
            return other

        yield from ((f"{where} {what}", change(how)) for what, how in (
            [*spoiled_keys(document, value), *spoiled_kinds(path, value)] if isinstance(value, dict) else spoiled_list(path, value)))


def spoiled_keys(document, value):
    """Yields what of an object is spoiled, and how."""
    yield "with another key", lambda it: it.update(more=1)
    for key in value:
        if not may_go(key):
            yield f"without {key}", lambda it, key=key: it.pop(key)
        for other in OTHERS.get(key, []) if not isinstance(value[key], list) else ["", None, {}]:
            yield f"with {key} {other!r}", lambda it, key=key, other=other: it.update({key: other})


def spoiled_kinds(path, value):
    """Yields what of an object is spoiled by what another one would have, and how."""
    if value.get("status") == "ok" and "installation-set" in value:
        yield "broken, with a set", lambda it: it.update(status="broken")
    if value.get("status") == "broken" and "reasons" in value:
        yield "ok, with reasons", lambda it: it.update(status="ok")
    if "kind" in value and path[0] == "causes":
        yield "that can be met", lambda it: it.update(kind="depends")
    if value.get("kind") in ("missing", "depends", "conflict"):
        other = "Breaks" if value["kind"] != "conflict" else "Depends"
        yield f"of the field {other}", lambda it: it.update(field=other)
        yield "with a name", lambda it: it.update(name="a")
        yield "of the kind versions", lambda it: it.update(kind="versions")
    if value.get("kind") == "conflict":
        yield "with alternatives", lambda it: it.update(relation="a | b")


def spoiled_list(path, value):
    """Yields what of a list is spoiled, and how."""
    if value and (path[-1] not in MAY_BE_EMPTY or (path[0] == "report" and path[-1] in OF_A_WALK)):
        yield "empty", lambda it: it.clear()
    yield "with a number", lambda it: it.append(1)
    if path == ("report",) and len(value) > 1 and {"reasons", "installation-set"} & {*value[0]}:
        yield "with one package without its reasons or its set", lambda it: [it[0].pop(key, None) for key in ("reasons", "installation-set", "also")]


def kinds_met(documents):
    """Returns what of the schema's choices some report has."""
    met = set()
    for document in documents:
        met |= {("document", it) for it in document}
        for path in places(document):
            value = at(document, path)
            if isinstance(value, dict):
                met |= {("key", it) for it in value} | {("kind", value.get("kind")), ("field", value.get("field")), ("status", value.get("status"))}
    return met


def in_order(value, orders):
    """Returns whether an object's keys stand in the order of some object of the schema that has them all."""
    keys = [*value]
    return any([it for it in order if it in value] == keys for order in orders)


WANTED = {
    *[("document", it) for it in ("background", "causes")], *[("kind", it) for it in ("missing", "depends", "conflict", "versions", "essential")],
    *[("field", it) for it in ("Pre-Depends", "Depends", "Conflicts", "Breaks")], ("status", "ok"), ("status", "broken"), ("key", "provides"),
    *[("key", it) for it in ("installation-set", "reasons", "also", "present", "similar", "needed-by", "frees", "hits", "versions")],
    *[("key", it) for it in ("met-by", "alternatives", "newly-broken", "mended", "gone", "further")],
}


def misplaced(documents, schema):
    """Yields what of the reports stands in another order than the schema has it."""
    orders = [[*it["properties"]] for it in [schema, *schema["$defs"].values()] if "properties" in it]
    for document in documents:
        for value in (at(document, path) for path in places(document)):
            if isinstance(value, dict) and not in_order(value, orders):
                yield f"keys in another order: {[*value]}"
        options = document["options"]
        if options != [it for it in OPTIONS if it in options]:
            yield f"options in another order: {options}"


def read_all(validator):
    """Returns the reports, each once, and how many of the runs have one that is refused."""
    documents, wrong, count = {}, 0, 0
    with tempfile.TemporaryDirectory() as folder:
        for name, document in reports(folder):
            count += 1
            documents.setdefault(json.dumps(document), document)
            for fault in itertools.islice(validator.iter_errors(document), 1):
                wrong += 1
                print(f"schema: {name}: {fault.message} at {'/'.join(map(str, fault.absolute_path))}")
    print(f"schema: {count} runs, {len(documents)} reports, {wrong} refused")
    return [*documents.values()], wrong


def each_part(documents):
    """Yields reports that together have each part that some report has."""
    met = set()
    for document in sorted(documents, key=lambda it: len(json.dumps(it))):
        parts = kinds_met([document]) | {("option", it) for it in document["options"]}
        if not parts <= met:
            met |= parts
            yield document


def taken(documents, validator):
    """Returns how many spoiled reports are taken."""
    tried = passed = 0
    for document in each_part(documents):
        for what, other in spoiled(document):
            tried += 1
            if validator.is_valid(other):
                passed += 1
                print(f"schema: takes {what}")
    print(f"schema: {tried} spoiled reports, {passed} taken")
    return passed


def main():
    with open(f"{TOP}/docs/report.schema.json", encoding="utf-8") as file:
        schema = json.load(file)
    jsonschema.Draft202012Validator.check_schema(schema)
    validator = jsonschema.Draft202012Validator(schema)
    documents, refused = read_all(validator)
    lacking = WANTED - kinds_met(documents)
    faults = [*misplaced(documents, schema), *([f"no report has {sorted(lacking)}"] if lacking else [])]
    for fault in faults:
        print(f"schema: {fault}")
    return 1 if refused + len(faults) + taken(documents, validator) else 0


if __name__ == "__main__":
    sys.exit(main())
