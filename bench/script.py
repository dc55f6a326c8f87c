"""What the scripts here and in trials/ have in common: a script reads its words, works in a folder of its own, and says what went wrong."""
import argparse
import os
import signal
import subprocess
import sys
import tempfile

TOP = os.path.dirname(os.path.dirname(os.path.abspath(__file__)))
DEBCHECK = os.path.join(TOP, "debcheck")


class Failed(Exception):
    pass


def say(name, text):
    print("%s: %s" % (name, text), file=sys.stderr, flush=True)


def run(name, options_of, work):
    """The exit status: what work(options, folder) gives, or 2 where it could not be done."""
    for number in (signal.SIGTERM, signal.SIGHUP):
        signal.signal(number, lambda number, frame: sys.exit(128 + number))
    try:
        options = options_of(sys.argv[1:])
        with tempfile.TemporaryDirectory(prefix="debcheck-%s-" % name) as folder:
            return work(options, folder)
    except Failed as fault:
        say(name, fault)
    except OSError as fault:
        say(name, "%s: %s" % (fault.filename, fault.strerror) if fault.filename else fault)
    except KeyboardInterrupt:
        say(name, "interrupted")
    return 2


def output_of(words):
    """What a program writes to standard output, with nothing to read."""
    try:
        done = subprocess.run(words, stdin=subprocess.DEVNULL, stdout=subprocess.PIPE, stderr=subprocess.PIPE)
    except OSError as fault:
        raise Failed("%s: %s" % (words[0], fault.strerror))
    if done.returncode != 0:
        raise Failed("%s: status %d\n%s" % (" ".join(words), done.returncode, done.stderr.decode(errors="replace").rstrip()))
    return done.stdout


def native_arch():
    return output_of(["dpkg", "--print-architecture"]).decode().strip()


def positive(text):
    """A number of seconds."""
    value = float(text)
    if not 0 < value <= 1e6:
        raise ValueError
    return value


def parser(name, about, end=None):
    """A parser of words that knows --program."""
    made = argparse.ArgumentParser(prog=name, description=about, formatter_class=argparse.RawDescriptionHelpFormatter, epilog=end)
    made.add_argument("--program", metavar="PATH", default=DEBCHECK, help="debcheck (default: ./debcheck at the top of the repository)")
    return made


def timing_parser(name, about, limit, end=None):
    """One that knows --arch and --limit, too."""
    made = parser(name, about, end)
    made.add_argument("--arch", metavar="A", help="the architecture (default: what dpkg --print-architecture says)")
    made.add_argument("--limit", metavar="S", type=positive, default=limit, help="seconds for one run at most (default: %d)" % limit)
    return made


def timing_options(made, words):
    """The options of such a parser, with the machine's architecture where none was named."""
    options = made.parse_args(words)
    options.arch = options.arch or native_arch()
    return options
