"""What the tests share: the run of a tool, the program that sweeps run, and a small run with all that it wrote."""

import importlib.util
import io
import runpy
import shlex
import subprocess
import sys
from contextlib import redirect_stderr, redirect_stdout
from pathlib import Path
from unittest import mock

from launcher import there

TOP = Path(__file__).resolve().parents[2]
TOOLS = TOP / "tools"
DATA = TOP / "tests/measures/data"
PROGRAM = there.program(TOP)

# Three ports and two rounds: a multicast packet of three cells at input 0 for outputs 1 and 2, and
# unicast at input 1, two cells for output 2 and one for output 0.
REPORT = """\
ports 3
rounds 2
depth 131072
slots 7
packets 3
oversize 0
unrouted 0
dropped 0
forwarded 3
copies 4
cells 9
longest 2 0 0 0
output 0 packets 1 cells 1
output 1 packets 1 cells 3
output 2 packets 2 cells 5
slot 0 used 0 first 0
slot 1 used 1 first 1 1>2:0u
slot 2 used 2 first 2 1>0:0u 0>1:0m 0>2:0m
slot 3 used 1 first 2 0>1:0m 0>2:0m
slot 4 used 1 first 2 0>1:0m 1>2:0u
slot 5 used 1 first 1 0>2:0m
slot 6 used 0 first 0
reference 0 ends 3 runs 3 lead 0 extra 0
reference 1 ends 5 runs 5 lead 0 extra 0
reference 2 ends 6 runs 6 lead 0 extra 0
"""
JOURNAL = bytes.fromhex(
    "54544a310302000000000007000100010000ff00ff00ff000001010100000000000000040000ff00ff000100"
    "1001000000000000000601010000000000000005000001000001000110010000000000000006010100000000"
    "000000040000ff000001000110010000000000000006010100000000000000040000ff000001010010010000"
    "00000000000400000000ff00ff000001000000000000ff00ff00ff00"
)
QUEUES = """\
queue 0>*:0m packets 1 dropped 0 cells 3 peak 3 slot 2
queue 1>0:0u packets 1 dropped 0 cells 1 peak 1 slot 2
queue 1>2:0u packets 1 dropped 0 cells 2 peak 2 slot 1
deepest 3
"""
PACKETS = """\
input,packet,bytes,cells,state,level,kind,output,arrival,departure,delay
0,0,150,3,forwarded,0,m,1,2,5,3
0,0,150,3,forwarded,0,m,2,2,6,4
1,0,60,2,forwarded,0,u,2,1,5,4
1,1,20,1,forwarded,0,u,0,2,3,1
"""


def lacks(*modules):
    """Which of these modules Python does not have, as the reason to skip a test; empty where it has all."""
    missing = [name for name in modules if importlib.util.find_spec(name) is None]
    return "Python has no " + ", ".join(missing) if missing else ""


def with_program(command, folder):
    """A command that a tool prints for a shell in a folder, with the program of the tests in the place of the launcher."""
    word = shlex.split(command)[0]
    assert (Path(folder) / word).samefile(TOP / "tiny_tera"), command
    return command.replace(shlex.quote(word), shlex.quote(str(PROGRAM.resolve())), 1)


def run(*words, **more):
    """A tool's status and what it printed, both streams."""
    ended = subprocess.run(
        [sys.executable, *map(str, words)], stdout=subprocess.PIPE, stderr=subprocess.STDOUT, text=True, **more
    )
    return ended.returncode, ended.stdout


def run_here(name, *words):
    """The same of a tool by its name, in this process, which spares the start of another."""
    main = runpy.run_path(str(TOOLS / name))["main"]
    said = io.StringIO()
    with mock.patch("sys.argv", [name, *map(str, words)]), redirect_stdout(said), redirect_stderr(said):
        try:
            status = main()
        except SystemExit as ended:
            status = ended.code
    return status, said.getvalue()
