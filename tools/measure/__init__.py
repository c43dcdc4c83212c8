"""What the tools read and make: reports, journals, packets files, traffic, delays and figures.

The readers of a run's files are those of the package for Python, and that of captures is the launcher's.
"""

import sys
from pathlib import Path

TOP = Path(__file__).resolve().parents[2]
sys.path[1:1] = [str(TOP), str(TOP / "python")]
