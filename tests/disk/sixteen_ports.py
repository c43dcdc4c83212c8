"""A job of 16 ports, with packets of one to four cells, unicast and multicast, of all levels."""

from .files import RAW_IP, header, packet, record

PORTS = 16
PACKETS = 12
LENGTHS = (20, 60, 100, 200)
WORDS = ("table", "out", *[f"in.{port}" for port in range(PORTS)])


def _address(source, number):
    """Three of four packets go to one port, in turn; the rest to all ports of one parity, or to all."""
    if number % 4 == 3:
        return (10, 1, (source + number) % 3, 1)
    return (10, 0, (3 * source + 5 * number) % PORTS, 1)


def job_files(packets=PACKETS):
    """The table and the captures, by name, with so many packets for each port."""
    lines = [f"10.0.{port}.0/24 {port} {port % 4}\n" for port in range(PORTS)]
    for group, ports in enumerate((range(0, PORTS, 2), range(1, PORTS, 2), range(PORTS))):
        lines.append(f"10.1.{group}.0/24 {','.join(map(str, ports))} {group + 1}\n")
    files = {"table": "".join(lines).encode()}
    for source in range(PORTS):
        made = (packet(LENGTHS[(source + number) % 4], _address(source, number)) for number in range(packets))
        files[f"in.{source}"] = header(RAW_IP) + b"".join(map(record, made))
    return files
