"""The packets that `gen` makes, as far as one must know them to say how many fit: docs/FORMATS.md has the rule."""

MODULUS = 65_537
MESSAGE_HEADER, CELL_PAYLOAD = 16, 56
SHORTEST, LENGTHS = 60, 1_441
LEVELS, GROUPS = 4, 8
HALVED_ABOVE = 32
MAX_CELLS = 131_072


def most_cells(ports):
    """The most cells of all packets of a run, counted for each output, and the most arrival slots of a port."""
    return MAX_CELLS // 2 if ports > HALVED_ABOVE else MAX_CELLS


def cells_of_packet(number, ports):
    """The cells of the made packet of a number, counted for each output."""
    length = SHORTEST + number % LENGTHS
    cells = -(-(MESSAGE_HEADER + length) // CELL_PAYLOAD)
    is_for_two = ports > 1 and number // LEVELS % GROUPS == 0
    return 2 * cells if is_for_two else cells


def cells_in_turn(seed, count, ports):
    """The cells of the packets of a number of all ports, counted for each output."""
    return sum(cells_of_packet((75 * (seed + 101 * count + 13 * port) + 74) % MODULUS, ports) for port in range(ports))


def cells_of_gen(seed, count, ports):
    """The cells of all packets of `gen`, counted for each output."""
    return sum(cells_in_turn(seed, number, ports) for number in range(count))


def largest_count(seed, ports, limit):
    """The largest COUNT, at most the limit, with which `gen` has no more cells than a run may have."""
    cells = 0
    for count in range(limit):
        cells += cells_in_turn(seed, count, ports)
        if cells > most_cells(ports):
            return count
    return limit
