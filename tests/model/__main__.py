"""The model as a program: python3 -m tests.model COMMAND .., as the words of tiny_tera. It writes the same files."""

import sys
from pathlib import Path

from .files import FolderFiles
from .jobs import run_words

files = FolderFiles(Path.cwd())
status = run_words(sys.argv[1:], files)
for stream in ("stdout", "stderr"):
    getattr(sys, stream).write(files.printed[stream].decode())
sys.exit(status)
