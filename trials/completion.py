"""Types into a shell with the completion of debcheck and of debcheck-archive. Started by the script `completion`.

Each case is what is typed and the words that the command then gets. In bash `\\e*` puts all completions in place.
Status 0: the words are those. 1: some aren't, or --help has other options. 2: there is no bash."""
import argparse
import os
import pty
import re
import select
import shutil
import subprocess
import sys
import tempfile
import time

HERE = os.path.dirname(os.path.realpath(__file__))
TOP = os.path.dirname(HERE)
OPTIONS = [
    "--arch", "--bg", "--since", "--checkonly", "--format", "--workers", "--chunk", "--explain", "--failures", "--successes",
    "--causes", "--all-reasons", "--why", "--ignore-essential", "--strict", "--quiet", "--help", "--version",
]
CASES = [
    ("--fo\tj\t", ["--format", "json"]),
    ("--format t\t", ["--format", "text"]),
    ("--format=j\t", ["--format=json"]),
    ("--ar\tpowerpcsp\t", ["--arch", "powerpcspe"]),
    ("--arch=powerpcsp\t", ["--arch=powerpcspe"]),
    ("--bg Pack\t", ["--bg", "Packages of main"]),
    ("--bg=fol\tother\t", ["--bg=folder/other"]),
    ("--sin\tPack\t", ["--since", "Packages of main"]),
    ("--fai\t--expl\t--cau\t", ["--failures", "--explain", "--causes"]),
    ("--ign\t--succ\t--qui\t", ["--ignore-essential", "--successes", "--quiet"]),
    ("--work\t4 --chu\t8 --check\ta,b", ["--workers", "4", "--chunk", "8", "--checkonly", "a,b"]),
    ("--all\t--wh\t", ["--all-reasons", "--why"]),
    ("--str\t", ["--strict"]),
    ("--vers\t", ["--version"]),
    ("--he\t", ["--help"]),
]
ALL_AT_ONCE = [
    ("--\033*", sorted(OPTIONS)),
    ("--causes --format=json --\033*", ["--causes", "--format=json", *sorted({*OPTIONS} - {"--causes", "--format"})]),
    ("--format \033*", ["--format", "json", "text"]),
    ("--su\033* --\033*", ["--successes", *sorted({*OPTIONS} - {"--since", "--successes", "--all-reasons", "--why"})]),
]
ARCHIVE = "debcheck-archive"
ARCHIVE_CASES = [
    ("chec\tPack\t--rep\tj\t--bg fol\tother\t", ["check", "Packages of main", "--report", "json", "--bg", "folder/other"]),
    ("check --form\tt\t--by m\t--late\t", ["check", "--format", "text", "--by", "maintainer", "--latest"]),
    ("check --arch s3\t--sources --profi\tnod\t--no-i\t", ["check", "--arch", "s390x", "--sources", "--profiles", "nodoc", "--no-indep"]),
    ("sour\tPack\t--firs\t", ["sources", "Packages of main", "--first-alternative"]),
    ("would\tfoo --mir\tfolder --fro\tsid --t\tforky", ["would-migrate", "foo", "--mirror", "folder", "--from", "sid", "--to", "forky"]),
    ("part\tsystemd --fro\tPack\t", ["partial-upgrade", "systemd", "--from", "Packages of main"]),
    ("witho\tlibfoo2 --ind\tPack\t", ["without", "libfoo2", "--index", "Packages of main"]),
    ("debf\tfol\tother\t--ap\t", ["debfile", "folder/other", "--apt"]),
]
ARCHIVE_AT_ONCE = [
    ("wi\033* a --by \033*", ["without", "a", "--by", "maintainer", "source"]),
    ("check --since\033*", ["check", "--since", "--since-bg"]),
]


class Shell:
    """An interactive shell on a terminal of its own, in which a command only tells its words."""

    def __init__(self, words, folder, setting, command="debcheck"):
        self.command = command
        self.pid, self.end = pty.fork()
        if not self.pid:
            os.chdir(folder)
            os.environ.update(PS1="$ ", TERM="dumb", HISTFILE="", HOME=folder)
            os.execvp(words[0], words)
        asked = f"[[ $1 == --words || $1 == --commands ]] && {{ {TOP}/tools/{ARCHIVE} \"$@\"; return; }}; " if command == ARCHIVE else ""
        self.type(f"{setting}; {command}() {{ {asked}printf '<<%s>>' \"$@\"; echo; }}")
        self.answer("echo rea''dy", "ready")

    def type(self, text):
        # The end of the line is a key of its own, so that a completion before it is done.
        for part in text.replace("\t", "\t\0").replace("\033*", "\033*\0").split("\0"):
            os.write(self.end, part.encode())
            time.sleep(0.15 if part.endswith(("\t", "\033*")) else 0)
        os.write(self.end, b"\r")

    def answer(self, text, until):
        """Types a line and returns what the shell wrote up to the given word."""
        self.type(text)
        said, ends = "", time.monotonic() + 20
        while until not in said and time.monotonic() < ends:
            if select.select([self.end], [], [], 0.1)[0]:
                try:
                    said += os.read(self.end, 65536).decode(errors="replace")
                except OSError:
                    break
        return said

    def words(self, text):
        """Returns the words that the command gets where this is typed behind its name."""
        said = self.answer(f"{self.command} {text}", ">>\r\n")
        at = said.rfind("<<", 0, said.find("<<") + 2)
        return said[at + 2:said.find(">>\r\n")].split(">><<") if at >= 0 else [said]


def parted(words):
    """Returns the words with each value as a word of its own: zsh puts it behind "=", and the program takes both."""
    return [part for word in words for part in word.split("=", 1)]


def tried(name, shell, cases, read):
    wrong = 0
    for typed, wanted in cases:
        got = shell.words(typed)
        if read(got) != read(wanted):
            wrong += 1
            print(f"{name}: {typed!r} became {got}, and not {wanted}")
    print(f"{name}: {len(cases)} lines typed, {wrong} wrong")
    return wrong


def known_architectures():
    """Returns the architectures that completion offers: this machine's, and dpkg-architecture's where it is there."""
    said = subprocess.run("dpkg --print-architecture; dpkg-architecture -L", shell=True, capture_output=True, text=True).stdout
    return said.split()


def shells(command, folder):
    """A bash, and a zsh where there is one, with the completion of a command."""
    yield "bash", Shell(["bash", "--norc", "--noprofile", "-i"], folder, f"source {TOP}/completion/{command}.bash", command)
    if shutil.which("zsh"):
        os.makedirs(f"{folder}/functions", exist_ok=True)
        shutil.copy(f"{TOP}/completion/{command}.zsh", f"{folder}/functions/_{command}")
        setting = "fpath=($PWD/functions $fpath); autoload -U compinit; compinit -u -D; unsetopt beep list_beep"
        yield "zsh", Shell(["zsh", "-f", "-i"], folder, setting, command)
    else:
        print("completion: zsh isn't there, so it isn't tried")


def main():
    parser = argparse.ArgumentParser(prog="completion", description=__doc__)
    parser.add_argument("--program", metavar="PATH", default=f"{TOP}/debcheck", help="the debcheck whose --help is read")
    program = parser.parse_args().program
    if not shutil.which("bash"):
        print("completion: bash is needed", file=sys.stderr)
        return 2
    told = subprocess.run([program, "--help"], capture_output=True, text=True, check=True).stdout
    if {*re.findall(r"(?m)^ +(?:-\w, )?(--[a-z-]+)", told)} != {*OPTIONS}:
        print(f"completion: the options of --help are others than {OPTIONS}")
        return 1
    cases = CASES if "powerpcspe" in known_architectures() else [it for it in CASES if "powerpc" not in it[0]]
    if cases is not CASES:
        print("completion: dpkg-architecture isn't there, so its list isn't tried: apt-get install dpkg-dev")
    with tempfile.TemporaryDirectory() as folder:
        os.mkdir(f"{folder}/folder")
        for name in ("Packages of main", "folder/other"):
            open(f"{folder}/{name}", "w").close()
        wrong = 0
        for command, lines, at_once in (("debcheck", cases, ALL_AT_ONCE), (ARCHIVE, ARCHIVE_CASES, ARCHIVE_AT_ONCE)):
            for name, shell in shells(command, folder):
                alone = name == "bash"
                wrong += tried(f"{name}, {command}", shell, lines + at_once if alone else lines, list if alone else parted)
    return 1 if wrong else 0


if __name__ == "__main__":
    sys.exit(main())
