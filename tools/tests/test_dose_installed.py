"""What the package debcheck-dose installs works by itself."""

import subprocess
from pathlib import Path

from conftest import TOOLS, Write, stanza
from dose_runs import BUILDCHECK, DEBCHECK, run

FOLDER = "usr/lib/debcheck/dose"


def test_the_installed_commands(write: Write, tmp_path: Path) -> None:
    make = ["make", "-s", "install-debcheck-dose", f"DESTDIR={tmp_path}/to", "PREFIX=/usr"]
    subprocess.run(make, cwd=TOOLS.parent, check=True, stdout=subprocess.DEVNULL)
    path = write("P", stanza("a") + stanza("b", Depends="gone"))
    sources = write("S", "Package: s\nBinary: s\nVersion: 1\nArchitecture: any\nFormat: 1.0\n")
    for command, words in ((DEBCHECK, [path]), (BUILDCHECK, ["--deb-native-arch=amd64", path, sources])):
        link = tmp_path / command
        link.symlink_to(tmp_path / "to" / FOLDER / command)
        done = subprocess.run([str(link), "-f", "-e", *words], stdout=subprocess.PIPE, text=True)
        answer = run(command, "-f", "-e", *words)
        assert (done.returncode, done.stdout) == (answer.status, answer.out) == (1, answer.out)
    assert (tmp_path / "to/usr/share/doc/debcheck-dose/README.Debian").exists()
