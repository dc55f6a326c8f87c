"""Indexes of the archive, by apt's ordinary client: the machine's own, and that of another suite in lists of its own."""
import os
import re

from script import Failed, output_of

OTHER_SUITES = re.compile(r"-(security|updates|proposed-updates|backports|backports-sloppy|debug)\b|/")
KEYS = ("REPO_URI", "FILENAME", "COMPONENT", "ARCHITECTURE", "RELEASE", "CODENAME", "SUITE", "ORIGIN")
KEYRING = "/usr/share/keyrings/debian-archive-keyring.gpg"


def targets(arch, settings=()):
    """What apt knows of each main index of the architecture, the texts that lie on this machine alone."""
    words = ["apt-get"] + list(settings) + ["indextargets", "--format", "\t".join("$(%s)" % key for key in KEYS), "Created-By: Packages"]
    for line in output_of(words).decode().splitlines():
        target = dict(zip(KEYS, line.split("\t")))
        if target["COMPONENT"] == "main" and target["ARCHITECTURE"] == arch and os.path.exists(target["FILENAME"]):
            yield target


def largest(found, arch, path):
    """Writes the largest of these indexes to the path; gives its target and name, None where there is none."""
    best = None
    for target in found:
        text = output_of(["/usr/lib/apt/apt-helper", "cat-file", target["FILENAME"]])
        if best is None or len(text) > len(best[0]):
            best = text, target
    if best is None:
        return None
    text, target = best
    with open(path, "wb") as file:
        file.write(text)
    return target, "%s %s main %s" % (target["ORIGIN"] or "archive", target["RELEASE"] or target["CODENAME"], arch)


def is_whole_suite(target):
    return not OTHER_SUITES.search(" ".join(target[key] for key in ("RELEASE", "CODENAME", "SUITE")))


def main_index(arch, path):
    """Writes the machine's main index of the architecture to the path; gives its name."""
    found = largest(filter(is_whole_suite, targets(arch)), arch, path)
    if found is None:
        raise Failed("apt has no main index for %s; run 'apt-get update', or name one by --index" % arch)
    return found[1]


def suite_index(suite, arch, folder, path):
    """Writes the main index of another suite to the path; gives its name.

    It comes from where the machine's own main index comes from, into lists in the folder: the machine's are untouched.
    """
    found = largest(targets(arch, fetched("deb", suite, arch, folder)), arch, path)
    if found is None:
        raise Failed("apt found no main index of %s for %s" % (suite, arch))
    return found[1]


def suite_sources(suite, arch, folder, path):
    """Writes the index of the sources of another suite's main section to the path, from where its main index comes."""
    words = ["apt-get"] + fetched("deb-src", suite, arch, folder) + ["indextargets", "--format", "$(FILENAME)", "Created-By: Sources"]
    names = [name for name in output_of(words).decode().splitlines() if os.path.exists(name)]
    if not names:
        raise Failed("apt found no sources of " + suite)
    with open(path, "wb") as file:
        file.write(output_of(["/usr/lib/apt/apt-helper", "cat-file", names[0]]))


def fetched(kind, suite, arch, folder):
    """apt's settings for lists in the folder, which it has fetched: of packages by `deb`, of sources by `deb-src`."""
    uris = [target["REPO_URI"] for target in targets(arch) if is_whole_suite(target)]
    if not uris:
        raise Failed("apt has no main index for %s, whose archive could be asked for %s" % (arch, suite))
    lists, sources = (os.path.join(folder, "%s-%s%s" % (suite, kind, end)) for end in ("-lists", ".list"))
    os.makedirs(os.path.join(lists, "partial"))
    signed = "[signed-by=%s] " % KEYRING if os.path.exists(KEYRING) else ""
    with open(sources, "w", encoding="utf-8") as file:
        file.write("%s %s%s %s main\n" % (kind, signed, uris[0], suite))
    settings = ["-o", "Dir::Etc::SourceList=" + sources, "-o", "Dir::Etc::SourceParts=/dev/null", "-o", "Dir::State::Lists=" + lists,
                "-o", "Dir::Cache::PkgCache=", "-o", "Dir::Cache::SrcPkgCache=", "-o", "APT::Architectures=" + arch, "-o", "APT::Architecture=" + arch,
                "-o", "APT::Sandbox::User=root", "-o", "Acquire::Languages=none"]
    output_of(["apt-get"] + settings + ["-qq", "update"])
    return settings
