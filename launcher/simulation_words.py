"""The words of the command `simulate`: its options, what they mean together, and the words that the program takes.

docs/SIMULATE.md has the same ranges, and tests/run_launcher compares both.
"""

from .options import Fault, Option, millionths, number_between, number_of, one_of

MILLION = 1_000_000
MOST_SLOTS = 4_000_000_000
MOST_WAITING = 67_108_864  # Queues times their depth.
NUMBERS = {"SEED": (0, 1_000_000_000), "SLOTS": (1, MOST_SLOTS), "PORTS": (1, 64)}
SCHEDULERS = ("islip", "firm", "rrm", "pim", "fifo", "ideal")
ALONE = ("fifo", "ideal")  # These have a queue for each input, or for each output.
PATTERNS = ("uniform", "diagonal", "log-diagonal", "hot-spot", "unbalanced")
WEIGHED = ("hot-spot", "unbalanced")  # Of the patterns, those that want a weight.
DEPTH, TENTH = 4_096, 10  # The depth, and the part of the slots that is not measured, where none is given.

OPTIONS = {
    "--scheduler": Option(letter="NAME", choices=SCHEDULERS),
    "--rounds": Option(letter="R", low=1, high=64),
    "--load-ppm": Option(letter="P", high=MILLION),
    "--load": Option(letter="SHARE", stands_for="--load-ppm"),
    "--burst": Option(letter="B", low=1, high=4_096),
    "--pattern": Option(letter="NAME", choices=PATTERNS),
    "--weight-ppm": Option(letter="W", high=MILLION),
    "--weight": Option(letter="SHARE", stands_for="--weight-ppm"),
    "--depth": Option(letter="D", low=1, high=1_048_576),
    "--warm-up": Option(letter="S", high=MOST_SLOTS - 1),
    "--batches": Option(letter="K", low=1, high=1_000),
    "--histogram": Option(),
}


def queues_of(options, ports):
    """How many queues the switch of a simulation has."""
    return ports if options.get("--scheduler") in ALONE else ports * ports


def cells_of(job):
    """How many cells all queues of a simulation hold together."""
    return queues_of(job.options, int(job.names[2])) * int(job.options.get("--depth", DEPTH))


def test_simulation(job, line):
    """Fault where the numbers of a simulation are none, or do not go with its options; the line is its synopsis."""
    if len(job.names) != len(NUMBERS):
        raise Fault(f"simulate has three numbers, and here are {len(job.names)}: {line}")
    for (what, (low, high)), word in zip(NUMBERS.items(), job.names):
        number_of(what, word, low, high)
    slots, warm_up = int(job.names[1]), job.options.get("--warm-up")
    if warm_up and int(warm_up) >= slots:
        raise Fault(f"--warm-up {warm_up}: at least one of the {number_of_slots(slots)} is measured, so S is at most {slots - 1}")
    _test_weight(job.options.get("--pattern", PATTERNS[0]), "--weight-ppm" in job.options)


def number_of_slots(count):
    return "1 slot" if count == 1 else f"{count:,} slots"


def _test_weight(pattern, is_given):
    if pattern in WEIGHED and not is_given:
        raise Fault(f"--pattern {pattern} wants its share: --weight-ppm W, {number_between(0, MILLION)}, or as --weight 0.5")
    if pattern not in WEIGHED and is_given:
        raise Fault(f"the pattern {pattern} has no weight: --weight-ppm and --weight go with --pattern {one_of(WEIGHED)}")


def in_millionths(command, name, word):
    """What helps where an option in millionths has a share: the same in millionths."""
    short = next((it for it, option in OPTIONS.items() if option.stands_for == name), None)
    number = millionths(word) if command == "simulate" and short else None
    return f"; {word} is {name} {number}, or {short} {word}" if number else ""


def words_of(job):
    """The words of a simulation as the program takes them, in which all numbers are whole."""
    options = [f"{name}={value}" if OPTIONS[name].letter else name for name, value in job.options.items()]
    return ["simulate", *options, *job.names]


def shortened(job, slots):
    """The same simulation with so many slots, of which as large a part is not measured."""
    seed, whole, ports = job.names
    options = dict(job.options)
    if "--warm-up" in options:
        options["--warm-up"] = str(int(options["--warm-up"]) * slots // int(whole))
    return job._replace(options=options, names=[seed, str(slots), ports])
