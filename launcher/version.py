"""The version of the program; CHANGELOG.md has what a user sees of it."""

VERSION = "1.0"


def told_version(commit):
    """The version with the tag or the commit, where that is known."""
    if commit == "unknown":
        return f"tiny_tera {VERSION}"
    return f"tiny_tera {VERSION}, commit {commit}" if commit.startswith("unknown") else f"tiny_tera {VERSION} ({commit})"
