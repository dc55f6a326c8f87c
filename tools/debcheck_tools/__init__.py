"""Tools around debcheck: they read an archive's files, ask the program, show its answers, and decide nothing."""
