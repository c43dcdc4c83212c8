"""Begins the launcher; the script tiny_tera at the top calls this. It is read by any Python, so that an old one says so."""

import os
import sys

TOP = os.path.dirname(os.path.dirname(os.path.realpath(__file__)))

if sys.version_info < (3, 8):
    sys.exit("tiny_tera: this needs Python 3.8 or later, and %s is %d.%d" % (sys.executable, sys.version_info[0], sys.version_info[1]))

sys.path.insert(0, TOP)

from launcher.main import start  # noqa: E402

start(TOP)
