"""Edits of the bodies of different functions, tried by one check: each function is proved from its own body, its contract and those of what it calls."""
import glob
import importlib.machinery
import importlib.util
import itertools
import os
import re
import shutil
import signal
import tempfile

import older_kit
from script import TOP, Failed

CRATES, EDITS = os.path.join(TOP, "crates"), os.path.join(TOP, "trials", "edits")
JOBS = ["--jobs", "1"]
HEAD = re.compile(r"( *)(?:pub(?:\([^)]*\))? )?(?:const |unsafe )*fn (\w+)")
STATE = re.compile(r"(?:fn|struct|enum|trait|impl) (\S+): (.*)")
WAITS = re.compile(r"it calls (.*), which (?:is|are) not proved")
CYCLE = re.compile(r"in `([^`]*)`, of this cycle of calls: ")
PLACE = re.compile(r"(?:note: )?(?:\./)?(\S+?):(\d+):\d+:")
LACKS = re.compile(r"(?:note: )?(?:\./)?proofs/.*\s(has no field|is not in scope|has no `|was not admitted)", re.S)
NAMED = "only because a proof file names what the edit took away"
WEAK, ANEW = "weak", "anew"  # beside the kinds of rt: refused for a name alone; and nothing is known yet


def listed():
    """The paths of the edits that the list trials/edits/gate names by their crates and names, in its order."""
    with open(os.path.join(EDITS, "gate"), encoding="utf-8") as file:
        lines = [line.split() for line in file if line.strip() and not line.startswith("#")]
    return [os.path.join(EDITS, crate, "%s.edit" % name) for crate, name in lines]


def own_edits():
    """The paths of the edits that rt ci tries, in the crates' folders."""
    return sorted(glob.glob(os.path.join(CRATES, "*", "must-fail", "*.edit")))


def crate_of(path):
    """The crate whose edit a path is."""
    return os.path.basename(os.path.dirname(path).removesuffix("/must-fail"))


def load_rt():
    """The program rt as a module: what it tries an edit by."""
    path = shutil.which("rt")
    if not path:
        raise Failed("there is no rt")
    loader = importlib.machinery.SourceFileLoader("rt", os.path.realpath(path))
    rt = importlib.util.module_from_spec(importlib.util.spec_from_loader("rt", loader))
    loader.exec_module(rt)
    rt.rtlib.guarded()  # (a signal's handler, which only the main thread may set)
    if not hasattr(rt, "Kept"):
        older_kit.fit(rt)
    return rt


class Function:
    """A function with a body, in lines counted from 0: the first, with what stands above its head, the one that opens its body and the one that ends it."""

    def __init__(self, file, name, own, lines):
        self.file, self.name, (self.begins, self.opens, self.ends) = file, name, lines
        self.module, self.own = name[: -len(own)], own
        # a closure is called after its function
        self.closures = "%sfn::%s::" % (self.module, own)

    def owns(self, name):
        """Whether a name is the function's or one of its closures'."""
        return name == self.name or name.startswith(self.closures)

    def holds(self, message):
        """Whether a message is about a place of the function or of its proof."""
        path, line = PLACE.match(message).groups()
        if path == self.file:
            return self.begins <= int(line) - 1 <= self.ends
        return self.shares(path) or path.startswith((proofs_of(self.name + "::"), proofs_of(self.closures)))

    def shares(self, path):
        """Whether a place is in the proof of a cycle of calls that the function is in."""
        folder = proofs_of(self.module) + "+"
        return path.startswith(folder) and self.own.replace("::", "-") in path[len(folder):].split("/")[0].split("+")


def proofs_of(name):
    """Where the proofs lie of what has a name of that beginning."""
    return "/".join(["proofs", *name.split("::")[1:]])


def owner_of(line):
    """How rattle calls an impl: by the type, and behind it by the words of the trait."""
    head = re.match(r"(?:unsafe )?impl(<.*?>(?= ))?", line)
    own = re.findall(r"[<,] *(\w+)", head[1] or "")
    trait, _, of = re.sub(r"'\w+ ?", "", line[head.end():]).rpartition(" for ")
    words = [it for it in re.findall(r"\w+|&|\[", of + " " + trait) if it not in own]
    return "".join({"&": "Ref", "[": "Slice"}.get(it, it[0].upper() + it[1:]) for it in words)


def name_of(names, module, own):
    """How rattle calls a function: it puts that of an impl in the module of the type."""
    exact = "::".join([*module, own])
    found = [exact] if exact in names else [it for it in names if it.endswith("::" + own) and "::fn::" not in it]
    return found[0] if len(found) == 1 else None


def functions_of(names, crate, file, text):
    """The functions of a file in rt's layout, where what ends an item stands as far in as its first line; those that are none of the names are left out."""
    lines, owner, found, ends = text.split("\n"), "", [], 0
    module = [crate, *re.sub(r"(^|/)(lib|main)$", "", file[len("src/"):-len(".rt")]).split("/")]
    for at, line in enumerate(lines):
        trait = re.match(r"(?:pub(?:\([^)]*\))? )?trait (\w+)", line)
        if trait or re.match(r"(unsafe )?impl\b", line):
            owner = trait[1] if trait else owner_of(line)
        head = HEAD.match(line)
        if not head or at < ends:
            continue
        signature = itertools.takewhile(lambda it: lines[it], range(at, len(lines)))
        opens = next((it for it in signature if re.match(head[1] + r"(\S.*)?[{};]$", lines[it])), None)
        if opens is None or not lines[opens].endswith("{"):
            continue
        ends = lines.index(head[1] + "}", opens)
        begins = next(it for it in range(at, -1, -1) if not it or re.search(r"^$|[{}]$", lines[it - 1]))
        own = "::".join([owner, head[2]] if head[1] else [head[2]])
        name = name_of(names, list(filter(None, module)), own)
        if name and not any(it.strip().startswith("#[cycle") for it in lines[begins:at]):
            found.append(Function(file, name, own, (begins, opens, ends)))
    return found


class Edit:
    """An edit, with its function where it changes nothing but the body of one of these names."""

    def __init__(self, rt, path, label, crate, names):
        self.path, self.label, self.function = path, label, None
        self.texts = rt.read_edit(path, crate.folder)[0]
        if not self.texts or len(self.texts) > 1:
            return
        [(self.file, text)] = self.texts.items()
        with open(os.path.join(crate.folder, self.file), encoding="utf-8") as file:
            was = file.read()
        before, self.lines = was.split("\n"), text.split("\n")
        changed = [at for at, line in enumerate(before) if line != self.lines[at]]
        if self.file.startswith("src/") and not any(re.search(r"\bfn\b", self.lines[at]) for at in changed):
            inside = lambda it: all(it.opens < at < it.ends for at in changed)
            self.function = next(filter(inside, functions_of(names, crate.name, self.file, was)), None)


class Said:
    """What a check said: how each function fared, and each message with the lines that belong to it."""

    def __init__(self, rt, text):
        self.states, self.messages, self.limits = {}, [], rt.LIMITS
        for line in text.rstrip("\n").split("\n"):
            state = STATE.fullmatch(line)
            if state:
                self.states[state[1]] = state[2]
            elif PLACE.match(line):
                self.messages.append([line])
            elif line[:1].isspace() and self.messages:
                self.messages[-1].append(line)
        self.told = [it for it in self.messages if ": error" in it[0] or it[0].startswith("note: ")] or self.messages

    def told_of(self, function):
        """The messages about a function: those that show something, those of names that its proofs lack, and those of the prover's limits."""
        shows, lacks, limits = [], [], []
        for it in filter(lambda it: function.holds(it[0]), self.told):
            # (a long first line goes on in the second)
            kind = limits if self.limits.search("\n".join(it)) else lacks if LACKS.match("\n".join(it[:2])) else shows
            kind.append(it[0][:160])
        return shows, lacks, limits

    def fails(self, name):
        return not self.states[name].startswith(("proved", "assumed"))

    def fails_itself(self, name):
        """Whether more is amiss than that it calls what isn't proved, or goes round in a cycle of calls with it."""
        return self.fails(name) and not self.states[name].startswith(("no proof: it calls", "not proved; it waits")) and not CYCLE.search(self.states[name])

    def waits(self, name):
        """The functions whose proof this one lacks."""
        found, cycle = WAITS.search(self.states[name]), CYCLE.search(self.states[name])
        return set(re.findall(r"`([^`]*)`", found[1] if found else "")) | set(cycle.groups() if cycle else ())

    def waits_below(self, name):
        """These, and those whose proof these lack."""
        found, left = set(), {name}
        while left:
            more = self.waits(left.pop()) - found - {name}
            found |= more
            left |= more & self.states.keys()
        return found


class Tries:
    """The tries of the edits of one crate, over what the check of the crate as it stands kept; the pairs of functions that are to be apart."""

    def __init__(self, rt, crate, folder):
        self.rt, self.crate, self.folder, self.apart = rt, crate, folder, set()
        self.cycles = [os.path.relpath(it, crate.folder) for it in glob.glob(os.path.join(crate.folder, "proofs", "**", "+*"), recursive=True)]

    def checked(self, try_over):
        with tempfile.TemporaryDirectory(dir=self.folder) as room:
            over = os.path.join(room, "over")
            self.rt.linked(os.path.join(self.crate.folder, "out", "incremental"), over)
            return try_over(over)

    def check(self, edits, texts):
        """The ended check of the crate with these texts."""
        return self.checked(lambda over: self.rt.checked(self.crate, texts, JOBS, over))

    def alone(self, edit):
        """What a whole check with the edit alone comes to; from nothing, where one over the kept work isn't refused."""
        kind, text = self.checked(lambda over: self.rt.must_fail(self.crate, edit.path, JOBS, over))
        if kind not in self.rt.SETTLED:
            kind, text = self.rt.must_fail(self.crate, edit.path, JOBS)
        text = text.partition(": ")[2]
        return WEAK if kind == self.rt.REFUSED and NAMED in text else kind, text

    def texts_of(self, edits):
        texts = {}
        for edit in edits:
            if edit.file not in texts:
                with open(os.path.join(self.crate.folder, edit.file), encoding="utf-8") as file:
                    texts[edit.file] = file.read().split("\n")
            of = edit.function
            texts[edit.file][of.opens : of.ends] = edit.lines[of.opens : of.ends]
        return {file: "\n".join(lines) for file, lines in texts.items()}

    def together(self, edits):
        """What each of some edits of different functions comes to; an edit of which too little was said is to be tried alone (None) or once more (ANEW)."""
        texts = self.texts_of(edits)
        ran = self.check(edits, texts)
        said = Said(self.rt, ran.stdout)
        unread = [it[0] for it in said.messages if self.rt.unread(it[0], texts) or not said.states and re.search(r"\berror\[[\w-]+\]", it[0])]
        if not said.states or unread:
            return self.without_verdict(edits, unread)
        beyond = [it for it in said.states if said.fails_itself(it) and not any(edit.function.owns(it) for edit in edits)]
        if ran.returncode == -signal.SIGKILL or self.rt.rtlib.STALE.search(ran.stdout) or beyond:
            return {edit: None for edit in edits}
        return {edit: self.judged(edit, edits, said) for edit in edits}

    def without_verdict(self, edits, unread):
        """The edits that rattle can't read are tried alone, and the others once more; where none is named, each half by itself."""
        bad = [edit for edit in edits if any(edit.function.holds(it) for it in unread)]
        if bad or len(edits) == 1:
            return {edit: None if edit in bad or len(edits) == 1 else (ANEW, "") for edit in edits}
        half = len(edits) // 2
        return {**self.together(edits[:half]), **self.together(edits[half:])}

    def judged(self, edit, edits, said):
        """What a check of several edits says of this one."""
        own = [it for it in said.states if edit.function.owns(it) and said.fails(it)]
        refused = [it for it in own if said.fails_itself(it) and said.states[it].startswith(("not proved", "no proof"))]
        shows, lacks, limits = said.told_of(edit.function)
        waits = set().union(*(said.waits_below(it) for it in own)) - set(own)
        if refused and (shows or not lacks and not limits and not waits):
            return self.rt.REFUSED, "refused, as it must be: " + (shows or [said.states[refused[0]]])[0]
        others = [it.function.name for it in edits if it is not edit and any(map(it.function.owns, waits))]
        self.apart.update(frozenset((edit.function.name, it)) for it in others)
        if others:
            return ANEW, ""
        return (WEAK, "refused, as it must be (%s): %s" % (NAMED, lacks[0])) if refused and lacks and not limits else None

    def bars(self, one, other):
        """Whether edits of two functions can't be tried by one check."""
        return one.name == other.name or frozenset((one.name, other.name)) in self.apart or any(one.shares(it) and other.shares(it) for it in self.cycles)

    def rounds(self, edits):
        """The edits in few rounds: in none is a function twice, or beside one whose proof it lacked before."""
        count = lambda edit: -sum(it.function.name == edit.function.name for it in edits)
        found = []
        for edit in sorted(edits, key=count):
            free = next((it for it in found if not any(self.bars(edit.function, other.function) for other in it)), None)
            if free:
                free.append(edit)
            else:
                found.append([edit])
        return found

    def all(self, edits, pool):
        """Each edit with what it comes to."""
        together, alone = [it for it in edits if it.function], [it for it in edits if not it.function]
        while together:
            anew = []
            for told in pool.map(self.together, self.rounds(together)):
                alone += [edit for edit, found in told.items() if not found]
                anew += [edit for edit, found in told.items() if found and found[0] == ANEW]
                yield from ((edit, found) for edit, found in told.items() if found and found[0] != ANEW)
            together = anew
        yield from zip(alone, pool.map(self.alone, alone))
