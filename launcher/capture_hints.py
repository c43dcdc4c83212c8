"""Hints on captures that are refused: which file it is, and the command that makes one of it that is not."""

import os
import re
import shlex

from .given import Converted, given_name
from .sources import stamp_of

ETHERNET, RAW_IP = 1, 101
LINKS = {
    ETHERNET: "Ethernet", RAW_IP: "raw IP", 0: "loopback", 12: "raw IP under another number", 14: "raw IP under another number",
    105: "802.11", 108: "loopback", 113: "tcpdump -i any", 127: "802.11 with radio headers", 228: "raw IPv4", 276: "tcpdump -i any",
}
# What stands before the IP header of a packet of a link type that editcap makes raw IP of.
HEADER_BYTES = {0: 4, 12: 0, 14: 0, 108: 4, 113: 16, 228: 0, 276: 20}
# A pcapng file begins with the block of a section, whose bytes 8 to 11 tell its order, and the block of an interface.
NEXT_GENERATION, SECTION_ORDER, INTERFACE, RESOLUTION = b"\x0a\x0d\x0d\x0a", b"\x4d\x3c\x2b\x1a", 1, 9
MICROSECONDS_RESOLUTION, MOST_BLOCKS = 6, 4096
# The first bytes of files that are no classic captures, and the command that makes one: IN and OUT are its files.
MAGICS = (
    (NEXT_GENERATION, "is a pcapng file", "editcap -F pcap IN OUT"),
    (b"\x1f\x8b", "is compressed by gzip", "zcat IN > OUT"),
    (b"\xfd7zXZ", "is compressed by xz", "xzcat IN > OUT"),
    (b"\x28\xb5\x2f\xfd", "is compressed by zstd", "zstdcat IN > OUT"),
    (b"BZh", "is compressed by bzip2", "bzcat IN > OUT"),
    (b"\x34\xcd\xb2\xa1", "is of a variant of pcap with longer headers", "editcap -F pcap IN OUT"),
    (b"\xa1\xb2\xcd\x34", "is of a variant of pcap with longer headers", "editcap -F pcap IN OUT"),
    (b"\xc3\xd4\xa1\xb2", "has the bytes of each pair in the wrong order", "dd conv=swab if=IN of=OUT"),
    (b"\xb2\xa1\xd4\xc3", "has the bytes of each pair in the wrong order", "dd conv=swab if=IN of=OUT"),
)
# The magic of a classic capture, in each byte order, in micro- and nanoseconds.
LITTLE, BIG = (b"\xd4\xc3\xb2\xa1", b"\x4d\x3c\xb2\xa1"), (b"\xa1\xb2\xc3\xd4", b"\xa1\xb2\x3c\x4d")
VERSION_SWAPPED = (512, 1024)
HIGHEST_LINK = 0xFFFF
TEMPORARY = "/tmp"
LONGEST_RECORD = 262_144


def first_bytes(name, count=6):
    """The first bytes of a regular file; nothing of any other, since reading it could wait or take its bytes away."""
    if not stamp_of(name):
        return b""
    try:
        with open(name, "rb") as file:
            return file.read(count)
    except OSError:
        return b""


def kind_of(name):
    """What a file that is no classic capture is, with the command that makes one of it; None where that is not known."""
    begin = first_bytes(name)
    return next(((what, command) for magic, what, command in MAGICS if begin.startswith(magic)), None)


def is_capture(name):
    """Whether a file begins as a capture, of whatever form."""
    begin = first_bytes(name)
    return begin.startswith(LITTLE + BIG + tuple(magic for magic, *_ in MAGICS))


def converted(command, name, added=".classic", form=".pcap"):
    """A command with the name of a file for IN, and for OUT a name that no file has, in a folder that may be written. Of a
    capture in nanoseconds it makes one in nanoseconds. The new name is that of an unpacked file, or else ends as is said."""
    command, given = with_unit(command, name), given_name(name)
    before = _unpacking(given) if isinstance(name, Converted) else None
    names = {"IN": "-" if before else as_file(given), "OUT": as_file(_new_name(given, added, form))}
    return (before or "") + re.sub(r"\b(IN|OUT)\b", lambda it: shlex.quote(names[it[0]]), command)


def _unpacking(given):
    """The command that hands a file on to one that reads no such files; None where tools for captures read it."""
    _, command = kind_of(given) or ("", "editcap")
    words = command.replace(" > OUT", "").replace(" of=OUT", "")
    return None if words.startswith("editcap") else words.replace("IN", shlex.quote(as_file(given))) + " | "


def with_unit(command, name):
    """A command that keeps the nanoseconds of a file that has them."""
    if not is_nano(name):
        return command
    return command.replace("-F pcap", "-F nsecpcap").replace("tcpdump", "tcpdump --time-stamp-precision=nano")


def is_nano(name):
    """Whether a file is a capture in nanoseconds, classic or of the form pcapng."""
    data = first_bytes(name, MOST_BLOCKS)
    return data.startswith((LITTLE[1], BIG[1])) or data.startswith(NEXT_GENERATION) and _resolution_of(data) > MICROSECONDS_RESOLUTION


def _resolution_of(data):
    """The places of the seconds of a pcapng file's first interface, which has 6 where it says nothing."""
    order = "little" if data[8:12] == SECTION_ORDER else "big"
    at = int.from_bytes(data[4:8], order)  # The block behind that of the section.
    if int.from_bytes(data[at:at + 4], order) != INTERFACE:
        return MICROSECONDS_RESOLUTION
    end, at = at + int.from_bytes(data[at + 4:at + 8], order) - 4, at + 16
    while 0 < at + 4 <= end <= len(data):
        code, length = (int.from_bytes(data[place:place + 2], order) for place in (at, at + 2))
        if code == RESOLUTION:
            return data[at + 4]
        at += 4 + -(-length // 4) * 4
    return MICROSECONDS_RESOLUTION


def with_fix(text, command, name):
    """A text with the command for a file behind it; nothing where the file cannot be read again."""
    return text + converted(command, name) if stamp_of(name) else ""


def as_file(name):
    """A name that no command takes for an option."""
    return f"./{name}" if name.startswith("-") else name


def shell_word(word):
    """A word that is not UTF-8, as a shell takes it."""
    letters = (chr(byte) if 0x20 <= byte < 0x7F and byte not in b"'\\" else f"\\x{byte:02x}" for byte in os.fsencode(word))
    return f"$'{''.join(letters)}'"


def _new_name(name, added, form):
    """A name for what is made of a file: beside it, or else in the current folder or that for temporary files."""
    folder, own = os.path.split(name)
    unpacked = re.sub(r"\.(gz|xz|zst|bz2)$", "", own)
    stem, end = os.path.splitext(unpacked)
    if unpacked == own or not unpacked:
        stem, end = (stem if end in (form, ".pcapng") else own) + added, form
    place = next((it for it in (folder, "", TEMPORARY) if os.access(it or ".", os.W_OK)), folder)
    made = os.path.join(place, stem + end)
    number = 1
    while os.path.lexists(made):
        number += 1
        made = os.path.join(place, f"{stem}.{number}{end}")
    return made


def to_raw(name, link):
    """The command that makes raw IP of a capture of a link type, None where there is none."""
    before = {**HEADER_BYTES, ETHERNET: 14}.get(link)
    if before is None:
        return None
    chop = f"-L -C {before} " if before else ""
    return with_fix("", f"editcap -F pcap {chop}-T rawip IN OUT", name) or None


def named(link):
    return f"link type {link}" + (f" ({LINKS[link]})" if link in LINKS else "")


def hint_on(name, said):
    """What helps where the program says this of a capture, to be read behind its name; None where that is not known."""
    for pattern, make in FAULTS:
        found = re.fullmatch(pattern, said)
        if found:
            return make(name, *found.groups())
    return None


def on_short_header(name, count):
    if count == "0":
        return "is empty; a capture without packets has a header of 24 bytes"
    return "ends within its header of 24 bytes"


def on_magic(name, magic):
    found = kind_of(name)
    if not found:
        begin = bytes.fromhex(magic)
        found = next(((what, None) for known, what, _ in MAGICS if begin.startswith(known[:4])), None)
    if not found:
        return "is no capture"
    what, command = found
    return what + (f": {converted(command, name)}" if command else "")


def on_version(name, major, minor):
    if (int(major), int(minor)) == VERSION_SWAPPED:
        return _other_order(name)
    return "is not of version 2.4" + with_fix(": ", "editcap -F pcap IN OUT", name)


def _other_order(name):
    """A header whose magic is in one byte order and the rest in the other."""
    text = "has its magic in one byte order and the rest in the other"
    begin = first_bytes(name)
    if not begin:
        return text
    magic = "".join(f"\\{byte:03o}" for byte in reversed(begin[:4]))
    return text + ": " + converted(f"(printf '{magic}'; tail -c +5 IN) > OUT", name)


def on_link(name, link):
    link = int(link)
    if link > HIGHEST_LINK and link & HIGHEST_LINK in (ETHERNET, RAW_IP):
        return f"has more in the field of its link type than {named(link & HIGHEST_LINK)}" + with_fix(": ", "editcap -F pcap IN OUT", name)
    text = f"is of {named(link)}, and the switch takes Ethernet (1) and raw IP (101)"
    fix = to_raw(name, link)
    if link in (113, 276):
        text += "; capture on one interface" + (", or make raw IP of it" if fix else "")
    return text + (f": {fix}" if fix else "")


def on_cut(name, at):
    return "ends within a packet, as one that is still written" + with_fix("; to keep the whole packets: ", "tcpdump -r IN -w OUT", name)


def on_long(name, at, count):
    as_swapped = int.from_bytes(int(count).to_bytes(4, "little"), "big")
    why = "its length may be in the wrong byte order" if as_swapped <= LONGEST_RECORD else "the file may be damaged there"
    return f"has a packet of more than 262,144 bytes at byte {int(at):,}; {why}"


# What the program says of a capture, with the hint.
FAULTS = (
    (r"short header, (\d+) bytes", on_short_header),
    (r"bad magic ([0-9a-f]{8})", on_magic),
    (r"version (\d+)\.(\d+)", on_version),
    (r"link type (\d+)", on_link),
    (r"cut record at (\d+)", on_cut),
    (r"long record at (\d+), (\d+) bytes", on_long),
)


def on_two_links(job, first, second):
    """Captures of two link types: raw IP can be made of Ethernet, and not the other way."""
    kinds = {name: _link_of(name) for name in job.inputs}
    ethernet = next((name for name in job.inputs if kinds[name] == ETHERNET), None)
    other = next((name for name in job.inputs if kinds[name] == RAW_IP), None)
    if not (ethernet and other):
        return None
    fix = to_raw(ethernet, ETHERNET)
    return f"{given_name(ethernet)} is Ethernet (1) and {given_name(other)} raw IP (101), and all captures are of one type; of each that is Ethernet: {fix}"


def _link_of(name):
    begin = first_bytes(name, 24)
    order = "little" if begin[:4] in LITTLE else "big"
    return int.from_bytes(begin[20:24], order) if len(begin) == 24 else None
