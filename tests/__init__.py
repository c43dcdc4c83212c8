"""The tests of all that is no crate. Modules go by their names from the top of the repository, as tests.disk.files, and
those of tools/ and dev/ by their own, as the tools there name them."""

import sys
from pathlib import Path

TOP = Path(__file__).resolve().parent.parent
sys.path[1:1] = [str(TOP / "tools"), str(TOP / "dev")]
