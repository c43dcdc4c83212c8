"""The words of the command line: the job that they mean, or which word is wrong and what may stand there.

The rules are those of docs/FORMATS.md. What an option is stands in OPTIONS alone, those of `simulate` in simulation_words;
docs/USAGE.md has the same ranges, and tests/run_launcher compares both.
"""

from typing import NamedTuple

from . import simulation_words
from .options import Fault, Option, near, number_of, one_of
from .slot_lengths import MOST_ETHERNET, MOST_PACE_US, MOST_RATE, of_pace, of_rate, rate_for

SIMULATE = "simulate"  # The command that a program of its own does.
COMMANDS = ("run", "gen", "check", "firm", SIMULATE)
MAX_PORTS = 64
MAX_SEED, MAX_COUNT = 1_000_000_000, 4_000
PACE, RATE = "--pace-us", "--line-rate"
ETHERNET = "--ethernet"  # The launcher's own: the program is given a line rate.
LENGTHS = (PACE, RATE, ETHERNET)  # Each says how long a slot lasts.
DEPTH, SLOTS, JOURNAL, LONG = "--depth", "--slots", "--journal", "--long"

OPTIONS = {
    "--rounds": Option(("run", "gen", "firm"), "R", 1, 64),
    DEPTH: Option(("run", "gen", "firm"), "D", 1, 131_072, high_long=1 << 30),
    "--workers": Option(("run", "gen"), "W", 1, 32),
    PACE: Option(("run", "firm"), "K", 1, MOST_PACE_US),
    RATE: Option(("run", "firm"), "MBPS", 1, MOST_RATE, unit="Mbit/s"),
    ETHERNET: Option(("run", "firm"), "E", 1, MOST_ETHERNET, unit="Mbit/s"),
    "--scheduler": Option(("run", "gen", "check"), "NAME", choices=("islip", "firm", "rrm")),
    SLOTS: Option(("run",)),
    JOURNAL: Option(("run",), suffix=".journal"),
    "--reference": Option(("run",)),
    "--queues": Option(("run",)),
    "--packets": Option(("run",), suffix=".packets.csv"),
    "--alone": Option(("run",)),
    LONG: Option(("run", "firm")),
}

# Words of the launcher's own, which come before the command.
OVERWRITE, DRY_RUN, CONVERT = "--overwrite-inputs", "--dry-run", "--convert"
OWN = (OVERWRITE, DRY_RUN, CONVERT)

SYNOPSIS = {
    "run": "run [options] TABLE PREFIX INPUT..",
    "gen": "gen [options] SEED COUNT PORTS",
    "check": "check [options] FILE",
    "firm": "firm [options] TABLE INPUT..",
    SIMULATE: "simulate [options] SEED SLOTS PORTS",
}


class Job(NamedTuple):
    """What the words ask for: the command, the values of the options that are given, and the names."""

    command: str
    options: dict
    names: list

    @property
    def table(self):
        return self.names[0] if self.command in ("run", "firm") else None

    @property
    def prefix(self):
        return self.names[1] if self.command == "run" else None

    @property
    def inputs(self):
        """The captures of the ports, port 0 first."""
        return {"run": self.names[2:], "firm": self.names[1:]}.get(self.command, [])

    def with_inputs(self, inputs):
        """The same job of other captures, as many."""
        return self._replace(names=self.names[:len(self.names) - len(inputs)] + inputs)

    @property
    def is_long(self):
        """Whether the job has the limits of a long one."""
        return LONG in self.options

    @property
    def slot_option(self):
        """The option that says how long a slot lasts, and its number; None at line pace."""
        return next(((name, int(self.options[name])) for name in LENGTHS if name in self.options), None)

    @property
    def slot(self):
        """How long a slot lasts, None at line pace."""
        if self.slot_option is None:
            return None
        name, number = self.slot_option
        return of_pace(number) if name == PACE else of_rate(rate_for(number) if name == ETHERNET else number)

    def outputs(self):
        """What is written, in its order: each file's name, with what it is."""
        if self.command != "run":
            return {}
        files = {f"{self.prefix}.{port}.pcap": f"output {port}" for port in range(len(self.inputs))}
        files[f"{self.prefix}.report"] = "the report"
        for name, option in OPTIONS.items():
            if option.suffix and name in self.options:
                files[self.prefix + option.suffix] = f"what {name} writes"
        return files


def options_of(command):
    """The options that a command takes, by their names."""
    if command == SIMULATE:
        return simulation_words.OPTIONS
    return {name: option for name, option in OPTIONS.items() if command in option.commands}


def read_words(words):
    """The job of the words, else a Fault."""
    if not words:
        raise Fault("the first word is the command: " + one_of(COMMANDS))
    command, rest = words[0], words[1:]
    if command not in COMMANDS:
        raise Fault(_no_command(command))
    options, names = {}, []
    at = 0
    while at < len(rest):
        word = rest[at]
        at += 1
        if word == "--":
            names += rest[at:]
            break
        if word == "-" or not word.startswith("-"):
            names.append(word)
        else:
            at = _read_option(command, options, word, rest, at)
    job = Job(command, options, names)
    _test_options(job)
    _test_names(job)
    return job


def words_of_program(job, words):
    """The words of a job, where they mean one, as the program takes them: as they are, where these mean the same."""
    if job is None or ETHERNET not in job.options and job == read_words(words):
        return words
    options = dict(job.options)
    if ETHERNET in options:
        options[RATE] = str(rate_for(int(options.pop(ETHERNET))))
    return [job.command, *(f"{name}={value}" if OPTIONS[name].letter else name for name, value in options.items()), "--", *job.names]


def _read_option(command, options, word, rest, at):
    """Reads an option and its value, and answers where the next word is."""
    name, equals, value = word.partition("=")
    option = options_of(command).get(name)
    if option is None:
        raise Fault(_no_option(command, name))
    kept = option.stands_for or name
    if kept in options:
        raise Fault(f"{name} stands twice" + (f", since {name} and {kept} are one option" if kept != name else ""))
    other = next((it for it in LENGTHS if it in options and name in LENGTHS), None)
    if other:
        raise Fault(f"{other} and {name} both say how long a slot lasts: give one of them")
    if not option.letter:
        if equals:
            raise Fault(f"{name} has no value: leave out {equals}{value}")
        options[name] = ""
        return at
    if not equals:
        if at == len(rest) or rest[at].startswith("-"):
            raise Fault(f"behind {name} comes {option.allowed()}")
        value = rest[at]
        at += 1
    options[kept] = _value(command, name, value)
    return at


def _test_options(job):
    """Tests the options that stand together."""
    depth, option = job.options.get(DEPTH, "1"), options_of(job.command).get(DEPTH)
    if option and option.high_long and not job.is_long and int(depth) > option.high:
        raise Fault(_not_allowed(job.command, DEPTH, depth))
    clash = next((it for it in (SLOTS, JOURNAL) if it in job.options), None)
    if job.is_long and clash:
        raise Fault(f"{LONG} and {clash} do not go together: a long run has slots too many to be written one by one")


def _value(command, name, word):
    """The value of an option as the program takes it, else a Fault."""
    value = options_of(command)[name].read(word)
    if value is None:
        raise Fault(_not_allowed(command, name, word))
    return value


def _not_allowed(command, name, word):
    """That a word is no value of an option, and what may stand there."""
    option, taken = options_of(command)[name], options_of(command)
    more = near(word.lower(), option.choices) + simulation_words.in_millionths(command, name, word)
    if option.high_long and LONG in taken:
        more += f"; with {LONG} up to {option.high_long:,}"
    return f"{name} {word}: {option.letter} is {option.allowed()}{more}"


def _no_command(word):
    if any(word.partition("=")[0] in options_of(command) for command in COMMANDS):
        return f"the command comes before {word}: " + one_of(COMMANDS)
    return f"{word!r} is no command" + (near(word, COMMANDS) or ": the first word is " + one_of(COMMANDS))


def _no_option(command, name):
    if name in OWN:
        return f"{name} is a word of the launcher, and comes before the command: tiny_tera {name} {command} .."
    if not name.startswith("--"):
        return f"{name} is no option; a file whose name begins with - is given after a word --"
    taken = list(options_of(command))
    if (command, name) == ("firm", "--scheduler"):
        return "firm has its own scheduler: to choose one, tiny_tera run --scheduler NAME TABLE PREFIX INPUT.."
    if any(name in options_of(other) for other in COMMANDS):
        return f"{command} does not take {name}; it takes " + one_of(taken)
    return f"{name} is no option" + (near(name, taken) or ": " + _options_of(command, taken))


def _options_of(command, taken):
    return f"the options of {command} are {one_of(taken)}" if len(taken) > 1 else f"the option of {command} is {taken[0]}"


def _test_names(job):
    """Tests the number of the names, and the numbers of `gen`."""
    count = len(job.names)
    line = "tiny_tera " + SYNOPSIS[job.command]
    if job.command == "gen":
        if count != 3:
            raise Fault(f"gen has three numbers, and here are {count}: {line}")
        given = zip(("SEED", "COUNT", "PORTS"), job.names, ((0, MAX_SEED), (0, MAX_COUNT), (1, MAX_PORTS)))
        for what, word, (low, high) in given:
            number_of(what, word, low, high)
    elif job.command == SIMULATE:
        simulation_words.test_simulation(job, line)
    elif job.command == "check":
        if count != 1:
            raise Fault(f"check has one file, and here are {count}: {line}")
    elif not job.inputs:
        told = ", ".join(job.names) or "none"
        raise Fault(f"a name is missing: {line}, and the names here are {told}")
    elif len(job.inputs) > MAX_PORTS:
        raise Fault(f"here are {len(job.inputs)} captures, and a switch has at most {MAX_PORTS} ports: {line}")
