"""The words of dose-debcheck and dose-builddebcheck: what each means here, or why it is refused."""

from typing import NamedTuple

DEBCHECK, BUILDCHECK = "dose-debcheck", "dose-builddebcheck"
BOTH = (DEBCHECK, BUILDCHECK)


class Word(NamedTuple):
    """An option by its names; `value` is empty where it takes none, `refused` where it is taken."""

    names: tuple[str, ...]
    value: str
    meaning: str
    refused: str = ""
    commands: tuple[str, ...] = BOTH

    @property
    def spelled(self) -> str:
        """Its names as a help has them."""
        names = [
            name + ("=" if name.startswith("--") else " ") + self.value if self.value else name for name in self.names
        ]
        return ", ".join(names)


ONE_ARCHITECTURE = "one architecture is checked at a time; dose has the same word"
BINARIES = "Debian's packages alone are read; dose-distcheck reads the rest"

WORDS = (
    Word(("-h", "--help"), "", "shows the words"),
    Word(("--version",), "", "shows the version of dose that is stood in for, and debcheck's"),
    Word(("-v", "--verbose"), "", "says on standard error what is read, and when it is solved"),
    Word(("--progress",), "", "changes nothing: there is little to wait for"),
    Word(("--timers",), "", "says on standard error how long it took to load and to solve"),
    Word(("--quiet",), "", "leaves out warnings"),
    Word(
        ("-e", "--explain"),
        "",
        "with --failures: missing packages and conflicts, with the chains to them; with --successes: a set of packages",
    ),
    Word(("-m", "--explain-minimal"), "", "leaves out chains, and of a set what the package itself doesn't need"),
    Word(
        ("-c", "--explain-condense"),
        "",
        "condenses the graph",
        "no graph is made, and nothing is told twice: leave the word out",
    ),
    Word(("-f", "--failures"), "", "shows what can't be installed"),
    Word(("-s", "--successes"), "", "shows what can be installed"),
    Word(("--summary",), "", "counts the reasons, and for each that breaks several packages says which"),
    Word(
        ("--coinst",),
        "PACKAGES",
        "whether packages can be installed together",
        "ask by --checkonly about a package of your own that depends on them all, in a further file",
        (DEBCHECK,),
    ),
    Word(
        ("--fields",),
        "FIELDS",
        "prints further fields",
        "other fields stay with the index: take them from there by grep-dctrl",
        (DEBCHECK,),
    ),
    Word(("--lowmem",), "", "changes nothing: little memory is used", "", (DEBCHECK,)),
    Word(("-t",), "TYPE", "deb: the input is Debian's; no other type is taken", "", (DEBCHECK,)),
    Word(
        ("--checkonly",),
        "PACKAGES",
        "asks about these packages alone, whichever file has them: NAME[:ARCH] [(= VERSION)], with commas between",
    ),
    Word(("--latest",), "N", "leaves out all but the N newest versions of each name that is asked about"),
    Word(
        ("--fg",), "FILE", "a further file whose packages are asked about; again for each further one", "", (DEBCHECK,)
    ),
    Word(
        ("--bg",),
        "FILE",
        "a file whose packages may be used and aren't asked about; again for each further one",
        "",
        (DEBCHECK,),
    ),
    Word(
        ("--compare",),
        "FORM",
        "how versions are compared",
        "versions are compared as dpkg does: leave the word out",
        (DEBCHECK,),
    ),
    Word(("-o", "--outfile"), "FILE", "writes the report to a file"),
    Word(("-d", "--outdir"), "FOLDER", "the folder of --outfile"),
    Word(("--dot",), "", "draws the graph of each explanation", "no graph is drawn; dose has the same word"),
    Word(
        ("--dump",),
        "FILE",
        "writes what is solved as CUDF",
        "nothing is turned into CUDF; dose has the same word",
        (BUILDCHECK,),
    ),
    Word(
        ("--deb-native-arch",),
        "ARCH",
        "the architecture; else that of the first package that has one, but dose-builddebcheck has to be told",
    ),
    Word(("--deb-host-arch",), "ARCH", "the native architecture and no other: " + ONE_ARCHITECTURE, "", (BUILDCHECK,)),
    Word(("--deb-foreign-archs",), "ARCHS", "the native architecture and no other: " + ONE_ARCHITECTURE),
    Word(("--deb-ignore-essential",), "", "doesn't ask for the essential packages to be there"),
    Word(
        ("--deb-builds-from",),
        "",
        "ties packages to their sources",
        "packages aren't tied to their sources; dose has the same word",
    ),
    Word(("--deb-drop-b-d-indep",), "", "passes over Build-Depends-Indep and Build-Conflicts-Indep", "", (BUILDCHECK,)),
    Word(("--deb-drop-b-d-arch",), "", "passes over Build-Depends-Arch and Build-Conflicts-Arch", "", (BUILDCHECK,)),
    Word(
        ("-P", "--deb-profiles"),
        "PROFILES",
        "the build profiles, with commas between them; else those of DEB_BUILD_PROFILES",
        "",
        (BUILDCHECK,),
    ),
    Word(
        ("--deb-tupletable",),
        "FILE",
        "dpkg's table of architectures",
        "apt's own table serves: leave the word out",
        (BUILDCHECK,),
    ),
    Word(
        ("--deb-cputable",),
        "FILE",
        "dpkg's table of processors",
        "apt's own table serves: leave the word out",
        (BUILDCHECK,),
    ),
    Word(
        ("--deb-defaulted-m-a-foreign",), "", "changes nothing: it is for more than one architecture", "", (BUILDCHECK,)
    ),
    Word(("--deb-include-extra-source",), "", "asks about sources with Extra-Source-Only: yes, too", "", (BUILDCHECK,)),
    Word(
        ("--deb-emulate-sbuild",),
        "",
        "keeps of alternatives to build with those of the first one's name, as sbuild does",
        "",
        (BUILDCHECK,),
    ),
    Word(("--opam-switch",), "NAME", "a switch of opam", BINARIES, (DEBCHECK,)),
    Word(("--opam-switches",), "NAMES", "switches of opam", BINARIES, (DEBCHECK,)),
    Word(("--opam-profiles",), "NAMES", "profiles of opam", BINARIES, (DEBCHECK,)),
)


def words_of(command: str) -> list[Word]:
    return [word for word in WORDS if command in word.commands]
