"""Traffic with which all unicast queues of level 1 are full at once, with as many cells each.

Blocks of packets alone never fill all queues: each is served while the next ones come. So a multicast packet of
level 0 from port 0 to all outputs comes first. It has as many cells as all queues of an input will have, and while it
crosses it holds all outputs, as the best level. Meanwhile a packet of level 1 for each output comes to each port, one
after the other. The last ones come in the first slot that has nothing of level 0: there all queues are full, and
all pointers of level 1 are at port 0.
"""

from launcher.captures import CELL_PAYLOAD, LONGEST_FORWARDED, MESSAGE_HEADER, Arrival

from . import traffic

LEAST_PORTS = 2
CELLS = 8  # Of a queue, where nothing else is asked for: the most with 64 ports.
GROUP = bytes([239, 0, 0, 1])


def most_cells(ports):
    """The most cells that each queue can have: the long packet is forwarded, and all cells are as many as a job may have."""
    most = traffic.MAX_CELLS // 2 if ports > traffic.HALVED_ABOVE else traffic.MAX_CELLS
    longest = (MESSAGE_HEADER + LONGEST_FORWARDED) // CELL_PAYLOAD
    return min(longest // ports, most // (2 * ports * ports))


def full_slot(ports, cells):
    """The slot in which all queues are full, and the first in which they are served."""
    return 2 * ports * cells - 1


def slots_of_run(ports, cells):
    """For each scheduler the slots of the run with one round, which end with the one in which nothing is left.

    Under RRM each slot serves one cell. Under iSLIP each output begins one slot after the one before it, and then
    serves a cell in each slot.
    """
    begun = full_slot(ports, cells)
    return {"islip": begun + ports * cells + ports, "rrm": begun + ports * ports * cells + 1}


def make_arrivals(ports, cells):
    """The packets, in the order of slots and then of inputs."""
    long = ports * cells
    found = [Arrival(long - 1, 0, tuple(range(ports)), 0, long)]
    for output in range(ports):
        found += [Arrival(long - 1 + (output + 1) * cells, card, (output,), 1, cells) for card in range(ports)]
    return found


def write_full_queues(folder, ports, cells):
    """Writes a folder: the captures 00.pcap and so on of the ports, and table.txt."""
    records = [[] for _ in range(ports)]
    for packet in make_arrivals(ports, cells):
        records[packet.input].append(((packet.slot - packet.cells + 1) * traffic.PACE_US, _frame(packet)))
    captures = [traffic.capture_bytes(traffic.LINK_RAW_IP, packets) for packets in records]
    traffic.write_folder(folder, captures, _table(ports))


def _frame(packet):
    """A frame that fills the packet's cells."""
    destination = bytes([10, 0, packet.outputs[0], 1]) if len(packet.outputs) == 1 else GROUP
    length = packet.cells * CELL_PAYLOAD - MESSAGE_HEADER
    return traffic.ip_header(packet.input, destination, length).ljust(length, b"\0")


def _table(ports):
    group = f"{'.'.join(map(str, GROUP))}/32 {','.join(map(str, range(ports)))} 0\n"
    return group + "".join(f"10.0.{output}.0/24 {output} 1\n" for output in range(ports))
