"""Where a mirror and apt have their indexes."""

import os
import subprocess
from collections.abc import Iterator, Sequence
from dataclasses import dataclass
from typing import Optional

import apt_pkg

from debcheck_tools.errors import DATA, READ, USAGE, Fault, note
from debcheck_tools.index_files import PACKAGES, SOURCES

SUFFIXES = ("", ".xz", ".gz", ".zst", ".bz2", ".lz4", ".lzma")


@dataclass(frozen=True)
class Suite:
    """A suite of a mirror by its Release file: dists/SUITE."""

    folder: str
    architectures: tuple[str, ...]
    components: tuple[str, ...]
    all_apart: bool
    sizes: dict[str, int]

    def files(self, kind: str, arch: str, components: Sequence[str] = ()) -> list[str]:
        """The index files of a kind; of the components that are named, else of all that the mirror has."""
        unknown = [name for name in components if name not in self.components]
        if unknown:
            raise Fault(
                USAGE, f"{self.folder}/Release: has no component {unknown[0]}, but {', '.join(self.components)}"
            )
        if kind == PACKAGES and arch not in self.architectures:
            raise Fault(
                USAGE, f"{self.folder}/Release: has no architecture {arch}, but {', '.join(self.architectures)}"
            )
        found = [
            path
            for name in components or self.components
            for path in self.of_component(name, kind, arch, bool(components))
        ]
        if not found:
            raise Fault(READ, f"{self.folder}: has no {kind} file" + (f" for {arch}" if kind == PACKAGES else ""))
        return found

    def of_component(self, component: str, kind: str, arch: str, needed: bool) -> Iterator[str]:
        if kind == SOURCES:
            folders = [os.path.join(component, "source")]
        else:
            folders = [
                os.path.join(component, f"binary-{name}") for name in ([arch, "all"] if self.all_apart else [arch])
            ]
        for folder in folders:
            path = next(
                (
                    path
                    for suffix in SUFFIXES
                    if os.path.exists(path := os.path.join(self.folder, folder, kind + suffix))
                ),
                None,
            )
            if path:
                self.see_size(path)
                yield path
            elif needed:
                raise Fault(READ, f"{os.path.join(self.folder, folder)}: has no {kind} file, compressed or not")

    def see_size(self, path: str) -> None:
        """Refuses a file that has another size than Release says."""
        size, wanted = os.path.getsize(path), self.sizes.get(os.path.relpath(path, self.folder))
        if wanted is not None and size != wanted:
            what = "was cut off" if size < wanted else "is another day's"
            raise Fault(DATA, f"{path}: has {size} bytes, and Release says {wanted}: it {what}; fetch both again")


def suite(mirror: str, name: str) -> Suite:
    """Reads a suite's Release file, or InRelease."""
    folder = os.path.join(mirror, "dists", name)
    path = next((path for file in ("Release", "InRelease") if os.path.exists(path := os.path.join(folder, file))), None)
    if path is None:
        there = (
            sorted(os.listdir(os.path.join(mirror, "dists"))) if os.path.isdir(os.path.join(mirror, "dists")) else []
        )
        raise Fault(
            READ,
            f"{folder}: has no Release file"
            + (f"; {mirror}/dists has {', '.join(there)}" if there else f"; {mirror} has no dists"),
        )
    try:
        with apt_pkg.TagFile(path) as tags:
            section = next((section for section in tags if "Components" in section), None)
    except apt_pkg.Error:
        section = None
    if section is None:
        raise Fault(DATA, f"{path}: is no Release file: it names no components")
    apart = "all" in section.get("Architectures", "").split() and "Packages" not in section.get(
        "No-Support-for-Architecture-all", ""
    )
    sums = [line.split() for line in section.get("SHA256", section.get("MD5Sum", "")).splitlines()]
    return Suite(
        folder,
        tuple(arch for arch in section.get("Architectures", "").split() if arch != "all"),
        tuple(name.rpartition("/")[2] for name in section["Components"].split()),
        apart,
        {words[2]: int(words[1]) for words in sums if len(words) == 3 and words[1].isdigit()},
    )


def apt_files(kind: str, arch: Optional[str]) -> list[str]:
    """The index files that this machine's apt has fetched."""
    words = ["apt-get", "indextargets", "--format", "$(ARCHITECTURE) $(FILENAME)", f"Created-By: {kind}"]
    try:
        out = subprocess.run(words, stdin=subprocess.DEVNULL, stdout=subprocess.PIPE, text=True, check=True).stdout
    except (OSError, subprocess.CalledProcessError) as fault:
        raise Fault(READ, f"apt-get indextargets: {fault}") from None
    rows = [line.split(" ", 1) for line in out.splitlines()]
    named = [path for own, path in rows if kind == SOURCES or own in (arch, "all")]
    found = [path for path in named if os.path.exists(path)]
    if not found:
        raise Fault(
            READ,
            f"apt has no {kind} file here; run apt-get update" + (", with a line deb-src" if kind == SOURCES else ""),
        )
    if len(found) < len(named):
        note(f"apt lacks {len(named) - len(found)} of its {kind} files; apt-get update fetches them")
    return found
