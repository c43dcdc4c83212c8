"""The page of usage, docs/USAGE.md, in its sections: from it come --help and, by dev/make_man, the manual page; the options
of `simulate` are those of docs/SIMULATE.md."""

import re
import textwrap

LINK = re.compile(r"\[([^\]]+)\]\([^)]+\)")
WIDTH = 100


def blocks_of(text):
    """The title, and the blocks of a page in order: each a heading, a paragraph, a table or a block of text, in its lines;
    those of a paragraph, which end where a sentence does, are one."""
    title, *blocks = re.split(r"\n\n(?=\S)", text.strip())
    return title, [block.split("\n") if block.startswith(("#", "|", "```")) else [block.replace("\n", " ")] for block in blocks]


def section(blocks, title):
    """The blocks of a section; none where there is no such section."""
    at = next((number for number, lines in enumerate(blocks) if lines[0] == f"## {title}"), len(blocks))
    found = []
    for lines in blocks[at + 1:]:
        if lines[0].startswith("## "):
            break
        found.append(lines)
    return found


def cells_of(row):
    """The cells of a row of a table."""
    return [cell.strip() for cell in row.strip().strip("|").split("|")]


def words_of(text):
    """Prose without links and marks."""
    return LINK.sub(r"\1", text).replace("`", "").replace("**", "")


def synopsis(blocks):
    """The lines of the synopsis."""
    return next((lines[1:-1] for lines in section(blocks, "Synopsis") if lines[0].startswith("```")), [])


def _of_command(lines, command):
    """Of the synopsis, the lines of one command: the first, and those that go on with it."""
    found = []
    for line in lines:
        begins = line.startswith("tiny_tera ")
        if line.startswith(f"tiny_tera {command} ") or found and not begins:
            found.append(line)
        elif found:
            break
    return found


def _filled(text, indent="", first=None):
    return textwrap.wrap(words_of(text), WIDTH, initial_indent=indent if first is None else first, subsequent_indent=indent)


def help_lines(text):
    """What --help says: how the words go, what each command does, and where there is more."""
    _, blocks = blocks_of(text)
    found = ["usage:", *(f"  {line}" for line in synopsis(blocks)), ""]
    for lines in section(blocks, "Commands"):
        command = re.match(r"`(\w+)` ", lines[0])
        if command:
            # The first sentence.
            found += _filled(lines[0].split(". ")[0].rstrip(".") + ".", "  ")
    found.append("")
    for row in _rows(section(blocks, "Words of the launcher")):
        found += _row(row)
    return [*found, "", "tiny_tera COMMAND --help has the options of a command, with their ranges, and an example."]


def help_of_command(text, command, text_of_words):
    """What `COMMAND --help` says: what it does and an example, by the page of usage; its synopsis and its options, by the
    page that has its words."""
    blocks, of_words = blocks_of(text)[1], blocks_of(text_of_words)[1]
    used = _of_command(synopsis(of_words), command)
    found = ["usage:", *(f"  {line}" for line in used), ""]
    for lines in section(blocks, "Commands"):
        if lines[0].startswith(f"`{command}` "):
            what, _, example = lines[0].partition(" For example ")
            found += [*_filled(what), "", "example:", f"  {words_of(example).rstrip('.')}"]
    taken = set(re.findall(r"--[a-z-]+", " ".join(used)))
    rows = [row for row in _rows(section(of_words, "Options")) if row[0].strip("`").split(" ")[0] in taken]
    if rows:
        found.append("")
    for row in rows:
        found += _row(row)
    return found


def _rows(blocks):
    """The rows of all tables of a section, without their heads."""
    return [cells_of(row) for lines in blocks if lines[0].startswith("|") for row in lines[2:]]


def _row(row):
    name, what = words_of(row[0]), row[1]
    return _filled(what, " " * 22, f"  {name:<19} ")
