"""Runs a program with a terminal as its standard input, types a file there and ends the input; prints what it writes.

    terminal.py PROGRAM FILE

Standard output comes first, then what it says on standard error, each line of that behind `said: `.
"""

import os
import pty
import subprocess
import sys

END_OF_INPUT = b"\x04"  # Ctrl-D at the start of a line


def main(program, path):
    """Types the file, and gives the program's status."""
    outside, terminal = pty.openpty()
    with open(path, "rb") as file:
        typed = file.read() + END_OF_INPUT
    running = subprocess.Popen([program], stdin=terminal, stdout=subprocess.PIPE, stderr=subprocess.PIPE)
    os.close(terminal)
    os.write(outside, typed)
    printed, said = running.communicate(timeout=60)
    os.close(outside)
    sys.stdout.write(printed.decode())
    for line in said.decode().splitlines():
        print(f"said: {line}")
    return running.returncode


sys.exit(main(*sys.argv[1:]))
