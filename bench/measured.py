"""Runs a program and tells what it used.

A run goes through a small process of its own (this file, started as a program), since the kernel counts
the memory that a process had before it became the measured program.
"""
import os
import signal
import sys
import time

FLOOR_MIB = 10  # that small process; a lower peak can't be told


def start(stdin, stdout, stderr, words):
    """In the child: becomes the program, in a process group of its own."""
    try:
        os.setpgid(0, 0)
        signal.signal(signal.SIGPIPE, signal.SIG_DFL)
        for number, path, flags in ((0, stdin, os.O_RDONLY),
                                    (1, stdout, os.O_WRONLY | os.O_CREAT | os.O_TRUNC),
                                    (2, stderr, os.O_WRONLY | os.O_CREAT | os.O_TRUNC)):
            os.dup2(os.open(path, flags, 0o600), number)
        os.execvp(words[0], words)
    except OSError as fault:
        os.write(2, ("%s: %s\n" % (words[0], fault.strerror)).encode())
    os._exit(127)


def main(limit, stdin, stdout, stderr, *words):
    """Prints: how it ended, a number, user and system and wall seconds, peak KiB."""
    begin = time.monotonic()
    child = os.fork()
    if child == 0:
        start(stdin, stdout, stderr, list(words))
    stopped = []

    def stop(number, frame):
        stopped.append(number)
        try:
            os.killpg(child, signal.SIGKILL)
        except ProcessLookupError:
            os.kill(child, signal.SIGKILL)

    for number in (signal.SIGALRM, signal.SIGTERM, signal.SIGINT, signal.SIGHUP):
        signal.signal(number, stop)
    signal.setitimer(signal.ITIMER_REAL, float(limit))
    _, status, used = os.wait4(child, 0)
    wall = time.monotonic() - begin
    if stopped:
        ended, number = "stopped", stopped[0]
    elif os.WIFSIGNALED(status):
        ended, number = "signal", os.WTERMSIG(status)
    else:
        ended, number = "status", os.WEXITSTATUS(status)
    print(ended, number, used.ru_utime, used.ru_stime, wall, used.ru_maxrss)


class Run:
    """What a run used and how it ended: `ended` is "status", "signal" or "stopped"."""

    def __init__(self, line):
        ended, number, user, system, wall, peak = line.split()
        self.ended, self.number = ended, int(number)
        self.user, self.system, self.wall = float(user), float(system), float(wall)
        self.cpu = self.user + self.system
        self.peak = int(peak) / 1024

    def ending(self, limit):
        if self.ended == "stopped":
            return "stopped after %g s" % limit
        return "%s %d" % (self.ended, self.number)


def lesser(one, two):
    """Of two runs the one that took less CPU time."""
    return two if two.cpu < one.cpu else one


def run(words, stdin, stdout, stderr, limit):
    """Runs the words with the three streams from and to the named files, `limit` seconds at most."""
    import subprocess
    launcher = subprocess.Popen([sys.executable, "-I", "-S", "-B", os.path.abspath(__file__),
                                 str(limit), stdin, stdout, stderr] + words, stdout=subprocess.PIPE)
    try:
        line = launcher.communicate()[0]
    except BaseException:
        launcher.terminate()
        launcher.wait()
        raise
    return Run(line.decode())


if __name__ == "__main__":
    main(*sys.argv[1:])
