"""Runs a program whose standard error is a terminal, and prints what is shown there.

    terminal.py OUTPUT INPUT PROGRAM WORDS..

OUTPUT is a file for standard output, or `-` where that is the terminal, too. INPUT is a file.
"""

import os
import pty
import sys


def main(output, source, *words):
    process, terminal = pty.fork()
    if process == 0:
        os.dup2(os.open(source, os.O_RDONLY), 0)
        if output != "-":
            os.dup2(os.open(output, os.O_WRONLY | os.O_CREAT | os.O_TRUNC, 0o644), 1)
        os.execv(words[0], words)
    shown = b""
    try:
        while part := os.read(terminal, 4096):
            shown += part
    except OSError:
        pass  # the program ended
    _, how = os.waitpid(process, 0)
    sys.stdout.write(shown.decode())
    return os.waitstatus_to_exitcode(how)


if __name__ == "__main__":
    sys.exit(main(*sys.argv[1:]))
