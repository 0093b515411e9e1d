"""Ends with status 0 where the program that stands in a crate's out/ is, by the stamp that `rt run` left beside it, of what stands there.

    tools/stamped.py RT FOLDER    RT is the kit's command, FOLDER that of the crate

The stamp is the kit's own sum of the crate, of all below it, and of the program. A kit of another make has none that is read here.
"""

import functools
import os
import sys


def main(rt, folder):
    sys.path.insert(0, os.path.dirname(rt))
    import rtlib

    # It is asked for once for each way that leads to a crate.
    rtlib.Crate.stamp = functools.lru_cache(maxsize=None)(rtlib.Crate.stamp)
    name = os.path.basename(folder)
    crate = next(it for it in rtlib.crates_below(folder) if it.name == name)
    program = f"{folder}/out/{name}"
    return int(rtlib.text_of(f"{program}.stamp") != crate.stamp() + rtlib.sum_of(program))


if __name__ == "__main__":
    sys.exit(main(*sys.argv[1:]))
