"""Builds a library of the crate in whose folder it is called, without the proofs of its statements.

    tools/library.py RT JOBS        RT is the kit's command

It is `rt lib`, but leaves the library's statements there without its proofs. The checks of the crates above then load less, so they
take less time and memory: they need the statements alone. The kit's gate builds libraries so, but `rt lib` has no word for it. So the
call of the prover is changed here. Such a check keeps no work for a later one. Where the kit's command is of another make, it is
called as it is.
"""

import importlib.machinery
import importlib.util
import os
import sys

sys.dont_write_bytecode = True


def loaded(path):
    """The kit's command, as a module."""
    loader = importlib.machinery.SourceFileLoader("rt", path)
    made = importlib.util.module_from_spec(importlib.util.spec_from_loader("rt", loader))
    loader.exec_module(made)
    return made


def main(path, jobs):
    words = ["lib", "--jobs", jobs]
    try:
        rt = loaded(path)
        begin, kept, crate = rt.main, rt.rtlib.KEPT, rt.rtlib.Crate
        call = crate.call
    except (AttributeError, ImportError, OSError, SyntaxError):
        os.execv(path, [path, *words])

    def call_for_statements(self, *given):
        if "build" in given:
            given = [*(it for it in given if it not in kept), "--statements"]
        return call(self, *given)

    crate.call = call_for_statements
    return begin(words)


if __name__ == "__main__":
    sys.exit(main(*sys.argv[1:]))
