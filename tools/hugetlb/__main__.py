"""Starts the tool; an interrupt meanwhile ends it without a word."""
import _signal  # type: ignore[import]
import sys

_signal.signal(_signal.SIGINT, _signal.SIG_DFL)
if sys.version_info < (3, 11):
    sys.exit("hugetlbctl: needs Python 3.11 or later")
from hugetlb.command import main

sys.exit(main(sys.argv[1:]))
