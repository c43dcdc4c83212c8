"""Traffic in which the request of input 0 for output 0 waits as long as a request can in any run.

All packets have one cell and level 0, and at most one comes to an input in a slot, from empty queues
and pointers at port 0. docs/WAITING.md says why no request of so many ports waits longer. In comments,
"input x goes down from output y" means that it takes outputs y, y + 1 and so on up to the last, one in
each slot, for which one packet comes to it in each slot.
"""

from launcher.captures import Arrival

LEAST_PORTS = 3
MOST_PORTS = 64
MOST_PORTS_MORE_ROUNDS = 40  # Beyond, iSLIP with two rounds or more needs more packets than a job that is not long may have.
MOST_ROUNDS = 64


def most_ports(rounds, firm):
    """The most ports for which there is traffic that a job may have."""
    return MOST_PORTS if firm or rounds == 1 else MOST_PORTS_MORE_ROUNDS


def longest_wait(ports, rounds, firm):
    """In how many slots, one after the other, a request of one level can ask in vain in a run."""
    if firm:
        return ports * ports - (1 if rounds == 1 or ports > 4 else 2)
    if rounds == 1:
        return 2 * ports * ports - 3 * ports
    return ports * (ports * ports - ports + 2) // 2 - 2


def longest_wait_traffic(ports, rounds, firm):
    """The packets that make a request wait so long, in the order of slots and then of inputs."""
    if firm:
        plan = _firm_one_round(ports) if rounds == 1 else _firm_more_rounds(ports)
    else:
        plan = _islip_one_round(ports) if rounds == 1 else _islip_more_rounds(ports)
    return plan.arrivals()


class _Plan:
    """Packets to come. Slot 0 is the first in which the request waits; the opening comes before it.

    In the opening all inputs ask output 0; each in turn, and then input 0 again, is served. Output 0
    then points at input 1, and each input at output 1.
    """

    def __init__(self, ports, left):
        """The opening, after which one more packet for output 0 is left in each of some inputs."""
        self.ports = ports
        self.slot = 0
        self.packets = []
        for card in range(ports):
            count = 1 + (card == 0) + (card in left)
            for later in range(count):
                self.packets.append((later - (ports + 1), card, 0))

    def come(self, card, output, later=0):
        """A packet comes to an input in the present slot, or some slots later."""
        self.packets.append((self.slot + later, card, output))

    def pass_slot(self):
        self.slot += 1

    def go_down(self, card, output):
        """An input goes down from an output."""
        for it in range(output, self.ports):
            self.come(card, it)
            self.pass_slot()

    def come_to_both(self, card, other, output):
        """Packets come to two inputs in the slot before; the output takes the second one's, and then
        points so that the first one's turn comes in the present slot."""
        self.come(card, output, -1)
        self.come(other, output, -1)

    def arrivals(self):
        """The packets, in slots that are counted from that of the first."""
        first = min(self.packets)[0]
        return [Arrival(slot - first, card, (output,), 0, 1) for slot, card, output in sorted(self.packets)]


def _lose_a_step(plan, card):
    """Input 0 goes down; meanwhile another input asks output 2, and in the last slot takes output 1.

    Of what it asks of output 2 one request is left then, so that it need not begin to ask two outputs at
    once in the slot in which it is to ask output 0.
    """
    ports = plan.ports
    if ports > 3:
        for slot in range(1, ports - 2):
            plan.come(card, 2, slot)
        plan.come(card, 1, ports - 2)
    plan.go_down(0, 1)


def _islip_one_round(ports):
    plan = _Plan(ports, left=[0])
    if ports == 3:
        # There is one slot too few: input 1 takes output 1 before slot 0.
        plan.come(1, 1, -1)
        plan.come(1, 2, 1)
    _lose_a_step(plan, 1)
    for card in range(1, ports):
        if card > 1:
            plan.come_to_both(card, 1, 1)
        # The input begins to ask output 0, and takes another output before it: input 1 takes output 2.
        plan.come(card, 0)
        plan.pass_slot()
        plan.go_down(card, 2 if card > 1 else 3)
        # The input takes output 0, and input 0 output 1; then input 0 goes down.
        plan.go_down(0, 1)
    return plan


def _islip_more_rounds(ports):
    plan = _Plan(ports, left=[0])
    if ports == 3:
        for slot in (-2, -1, 0):
            plan.come(2, 2, slot)
        plan.come(2, 1, 1)
    _lose_a_step(plan, ports - 1)
    for nearest in range(1, ports):
        for card in range(ports - 1, nearest - 1, -1):
            _refuse_and_go_down(plan, card, nearest)
        _serve_nearest(plan, nearest)
    return plan


def _refuse_and_go_down(plan, card, nearest):
    """An input begins to ask output 0, which grants it in the first round, and goes down instead.

    In its first slot output 0, refused, serves in the second round the input that did so before it. In
    each other slot input 0 is matched with another output, so that it is not served in that round.
    """
    is_last_input = card == plan.ports - 1
    first = 1 if nearest == 1 and not is_last_input else 2  # It asks this output since the slot before.
    plan.come(card, 0)
    for output in range(first, plan.ports):
        if output > first:
            plan.come(card, output)
        if output > first or is_last_input:
            _match_input_0(plan, card, nearest, output == plan.ports - 1)
        plan.pass_slot()


def _match_input_0(plan, card, nearest, is_last_slot):
    """Input 0 takes an output other than 0; in the last slot that which the next input is to take first."""
    if is_last_slot and card > nearest:
        wanted = 1 if nearest == 1 else 2
        plan.come(0, wanted)
        plan.come(card - 1, wanted)
    elif nearest == 1 and not is_last_slot:
        plan.come(0, plan.ports - 1)
    else:
        plan.come(0, 1)


def _serve_nearest(plan, nearest):
    """The nearest input takes output 0, and input 0 output 1; then input 0 goes down.

    Meanwhile the inputs that are to come again take output 1, one in each slot, from the last on.
    """
    ports = plan.ports
    plan.come(0, 1)
    plan.pass_slot()
    for later, card in enumerate(range(ports - 1, nearest, -1)):
        plan.come(card, 1, later)
    begin = plan.slot
    plan.go_down(0, 2)
    if nearest == ports - 1:
        return
    if ports > 3:
        plan.come_to_both(ports - 1, 1, 2)
    else:
        # Input 2 takes output 1 in the slot before, so what it asks of output 2 has to come earlier.
        plan.come(2, 2, begin - 2 - plan.slot)
        plan.come(2, 2, begin - 1 - plan.slot)


def _firm_one_round(ports):
    plan = _Plan(ports, left=range(ports))
    for card in [*range(1, ports), 0]:
        plan.go_down(card, 1)
        plan.pass_slot()  # The input takes output 0.
    return plan


def _firm_more_rounds(ports):
    plan = _Plan(ports, left=[0, 1, 2])
    for card in range(1, ports - 1):
        # Output 0, which this input refuses, serves the next one in the second round.
        for slot in range(ports - 1):
            plan.come(card + 1, 0, slot)
        plan.go_down(card, 1)
        if card + 2 < ports:
            plan.come(card + 2, 0)
        plan.pass_slot()  # The input takes output 0.
    if ports < 5:
        _match_in_first_round(plan)
    else:
        _match_in_second_round(plan)
    plan.go_down(ports - 1, 1)
    plan.pass_slot()
    plan.go_down(0, 1 if ports >= 5 else 2)
    return plan


def _match_in_first_round(plan):
    """While the last input goes down, input 0 takes outputs 2, 1, 1 and so on, and so loses a step."""
    plan.come(0, 2)
    for slot in range(1, plan.ports - 1):
        plan.come(0, 1, slot)


def _match_in_second_round(plan):
    """While the last input goes down, input 0 is matched in second rounds, which move no pointer of it.

    In each slot an output that input 2 refuses serves it: the last output, then output 1, then output 2.
    Before, each of these has served input 1, so that it points at input 2.
    """
    ports = plan.ports
    last = ports - 1
    plan.come(1, last, -1)
    plan.come(2, last, -1)
    for slot in range(ports - 3):
        plan.come(2, slot + 2, slot)
        plan.come(0, last, slot)
    plan.come(1, 1, 1)
    plan.come(1, 2, 2)
    for output, slot in ((1, ports - 3), (2, ports - 2)):
        plan.come(2, output, slot)
        plan.come(0, output, slot)
