"""Tables are read as the switch reads them: rows of an independent model, which the program is proved to answer too."""

import re
import unittest

from launcher.tables import BadTable, read_table, route

from .scene import TOP

ROWS = TOP / "crates/known_answers/data/tables.txt"
# An answer's first word, and what the program says.
SAID = {
    "bad_line": "table line {}: bad line", "host_bits": "table line {}: host bits", "bad_port": "table line {}: port {}",
    "bad_level": "table line {}: level", "repeated": "table line {}: repeats line {}", "too_many_lines": "table: {} lines",
}


def bytes_of(word):
    return word[1:-1].encode("latin-1").decode("unicode_escape").encode("latin-1")


def cases():
    """The rows: a name, the number of ports, the text, the answer, and routes of addresses."""
    for block in ROWS.read_text().split("\ncase ")[1:]:
        lines = [line for line in block.split("\n") if line and not line.startswith("#")]
        found = [line.partition(" ") for line in lines[1:]]
        data, times = b"", 1
        for word, _, rest in found:
            if word == "repeat":
                times = int(rest)
            elif word == "text":
                data, times = data + bytes_of(rest) * times, 1
        one = {word: rest.split(" ") for word, _, rest in found}
        routes = [rest.split(" ") for word, _, rest in found if word == "route"]
        yield lines[0], int(one["n"][0]), data, one["answer"], routes


def told(found):
    """A route in the words of the rows."""
    return [hex(sum(1 << port for port in found[0])), str(found[1])] if found else ["none"]


class Tables(unittest.TestCase):
    def test_rows(self):
        """Each good table with its number of lines and routes of addresses, and each fault."""
        seen = set()
        for name, ports, data, (answer, *numbers), routes in cases():
            with self.subTest(name):
                seen.add(answer)
                if answer == "ok":
                    self.check_routes(read_table(data, ports), int(numbers[0]), routes)
                else:
                    self.check_fault(data, ports, SAID[answer].format(*numbers))
        self.assertEqual(seen, {"ok", *SAID})

    def check_fault(self, data, ports, said):
        with self.assertRaises(BadTable) as fault:
            read_table(data, ports)
        self.assertEqual(str(fault.exception), said)

    def check_routes(self, found, lines, routes):
        self.assertEqual(len(found), lines)
        for address, *served in routes:
            number = None if address == "-" else int.from_bytes(bytes(map(int, re.findall("[0-9]+", address))), "big")
            self.assertEqual(told(route(found, number)), served, address)


if __name__ == "__main__":
    unittest.main()
