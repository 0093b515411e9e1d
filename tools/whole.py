"""Keeps what a run of `./test whole` came to in bench/whole.json, from which tools/pages.py writes it in docs/RESEARCH.md.

    tools/whole.py LINE    LINE is the last line of the run, as `120 passed, 0 failed`
"""

import datetime
import json
import pathlib
import re
import subprocess
import sys

ROOT = pathlib.Path(__file__).resolve().parent.parent
KEPT = ROOT / "bench/whole.json"
LINE = re.compile(r"([0-9]+) passed, ([0-9]+) failed")


def commit():
    """The commit that stands here, and whether something isn't committed."""
    named = subprocess.run(["git", "rev-parse", "--short=8", "HEAD"], cwd=ROOT, capture_output=True, text=True, check=True)
    changed = subprocess.run(["git", "status", "--porcelain"], cwd=ROOT, capture_output=True, text=True, check=True)
    return named.stdout.strip(), bool(changed.stdout.strip())


def main(words):
    if len(words) != 1 or not LINE.fullmatch(words[0]):
        raise SystemExit(__doc__)
    passed, failed = map(int, LINE.fullmatch(words[0]).groups())
    name, is_changed = commit()
    kept = {"date": datetime.date.today().isoformat(), "commit": name, "changed": is_changed, "passed": passed, "failed": failed}
    KEPT.write_text(json.dumps(kept, indent=0) + "\n")


if __name__ == "__main__":
    main(sys.argv[1:])
