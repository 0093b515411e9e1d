"""Prints what zsh makes of lines whose last word is completed: for each line of standard input, the line behind the key Tab.

    tests/lib/zsh.py FOLDER FUNCTIONS    FOLDER is one to work in, FUNCTIONS the one that has the completion
"""

import os
import pty
import signal
import sys
import threading
import time

SETTINGS = """
fpath=(%s $fpath)
autoload -Uz compinit && compinit -D -u
unsetopt auto_menu auto_list beep list_beep
show() { print -r -- "$BUFFER" >>shown; BUFFER= }
zle -N show && bindkey '^X' show
PS1= && print -n >shown
"""


def shown():
    try:
        with open("shown", encoding="utf-8") as it:
            return it.read().splitlines()
    except OSError:
        return None


def wait_for(count):
    for _ in range(1200):
        found = shown()
        if found is not None and len(found) >= count:
            return
        time.sleep(0.02)
    sys.exit("zsh.py: zsh doesn't answer")


def drain(terminal):
    try:
        while os.read(terminal, 65536):
            pass
    except OSError:
        pass


def main(folder, functions):
    os.chdir(folder)
    with open(".zshrc", "w", encoding="utf-8") as it:
        it.write(SETTINGS % functions)
    child, terminal = pty.fork()
    if child == 0:
        os.execvpe("zsh", ["zsh", "-d", "-i"], {**os.environ, "ZDOTDIR": folder, "TERM": "dumb"})
    threading.Thread(target=drain, args=(terminal,), daemon=True).start()
    wait_for(0)
    for count, line in enumerate(sys.stdin.read().splitlines(), 1):
        os.write(terminal, f"{line}\t\x18".encode())
        wait_for(count)
    print(*shown(), sep="\n")
    os.kill(child, signal.SIGKILL)
    os.waitpid(child, 0)


if __name__ == "__main__":
    main(*sys.argv[1:])
