"""Ends a script that an old Python runs, in words that such a one can read."""

import sys

if sys.version_info < (3, 9):
    name = sys.argv[0].split("/")[-1].split(".")[0].replace("acpidis-", "")
    sys.stderr.write("acpidis-%s needs Python 3.9, this is %d.%d\n" % ((name,) + sys.version_info[:2]))
    sys.exit(1)
