"""The program: python3 -m tuhvondi study FILE. See `tuhvondi.study`."""

import sys

from . import study

if __name__ == "__main__":
    if sys.argv[1:2] != ["study"]:
        print("usage: python3 -m tuhvondi study FILE [--fail each-link|each-router] ..", file=sys.stderr)
        sys.exit(0 if sys.argv[1:2] in (["-h"], ["--help"]) else 2)
    sys.exit(study.main(sys.argv[2:]))
