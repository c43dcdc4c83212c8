"""Names of captures that were converted for one run: they are read by their own, and told by those that were given."""


class Converted(str):
    """The name of a classic capture that was made of another file, and goes when the run has ended."""

    given = ""


def converted_from(name: str, given: str) -> Converted:
    """The name of a capture that was made of the file that was given."""
    made = Converted(name)
    made.given = given
    return made


def given_name(name: str) -> str:
    """The name of a capture as it was given."""
    return name.given if isinstance(name, Converted) else name
