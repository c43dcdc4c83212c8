"""Where the launcher stands: a clone of the repository, or a folder that tools/install has made."""

import json
import os
import subprocess


RECORD = "launcher.json"  # Of what the program was made, beside it.
# From the folder PREFIX/lib/tiny_tera.
INSTALLED_MANUAL = ("..", "..", "share", "man", "man1", "tiny_tera.1")


class Place:
    """The files that the launcher reads and starts."""

    def __init__(self, top):
        self.top = top
        self.is_installed = not os.path.exists(self.path("crates.txt"))
        self.usage = self.path("docs", "USAGE.md")
        self.simulations = self.path("docs", "SIMULATE.md")
        self.manual = os.path.normpath(self.path(*INSTALLED_MANUAL if self.is_installed else ("docs", "tiny_tera.1")))

    def path(self, *parts):
        return os.path.join(self.top, *parts)

    def version(self):
        """The tag or the commit, or why it is unknown: of an installed program the one that was installed."""
        if self.is_installed:
            return read_record(self.path(RECORD)).get("version", "unknown")
        if not os.path.exists(self.path(".git")):
            return "unknown"
        try:
            ended = subprocess.run(
                git_words(self.top, "describe", "--tags", "--always", "--dirty"),
                stdout=subprocess.PIPE, stderr=subprocess.PIPE, universal_newlines=True, env={**os.environ, "LC_ALL": "C"},
            )
        except OSError as fault:
            return f"unknown (git: {fault.strerror})"
        said = (ended.stderr.splitlines() or ["it says nothing"])[0]
        return ended.stdout.strip() or f"unknown (git: {said})"


def git_words(top, *words):
    """The command of git in a clone, of whatever owner: who calls this runs the clone's own files in any case."""
    return ["git", "-C", top, "-c", f"safe.directory={top}", *words]


def cache_folder():
    """Where the user's machine keeps what can be made again."""
    base = os.environ.get("XDG_CACHE_HOME", "")
    return os.path.join(base if os.path.isabs(base) else os.path.expanduser("~/.cache"), "nakufisi")


def read_record(path):
    """What is noted of what was made, empty where nothing is."""
    try:
        with open(path, encoding="utf-8") as file:
            found = json.load(file)
    except (OSError, ValueError):
        return {}
    return found if isinstance(found, dict) else {}


def write_record(path, record):
    """Notes what something was made from, at once or not at all."""
    new = f"{path}.{os.getpid()}"
    with open(new, "w", encoding="utf-8") as file:
        json.dump(record, file)
    os.replace(new, path)


def say(text):
    """Prints a line of the launcher's own on standard error."""
    tell_error(f"tiny_tera: {text}")


def tell_error(line):
    """Prints a line on standard error; where that is closed or full there is nothing to be done."""
    write_all(2, os.fsencode(shown(line)) + b"\n")


def tell(lines):
    """Prints lines on standard output, and answers the status."""
    is_written = write_all(1, b"".join(os.fsencode(shown(line)) + b"\n" for line in lines))
    return 0 if is_written else 1


def write_all(stream, data):
    """Whether all bytes were written to an open file; the others are left out."""
    try:
        while data:
            data = data[os.write(stream, data):]
    except OSError:
        return False
    return True


def shown(line):
    """A line in which no letter of a name moves the cursor or begins another line."""
    return "".join(it if it >= " " and it != "\x7f" else repr(it)[1:-1] for it in line)
