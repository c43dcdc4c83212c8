"""The Tiny Tera cell switch from Python: its proved schedulers over numpy arrays, and what reads and makes files of a run.

    scheduling   one slot of iSLIP, or of all levels and both kinds; whether a match is maximal; waits (numpy)
    verdicts     the verdict on a journal file
    frames       a report, a journal or a packets file as tables (pandas)
    report, journal, packets    the same files as plain values
    journal_writer    makes a journal of the slots of any scheduler; `write_journal` is here too
    journal_text      a journal as text, and back
    library      finds the shared object that scheduling and verdicts call
    simulation   runs `tiny_tera simulate`: `simulate`, and `simulate_all` for many points and seeds; both are here too
    simulated    what a simulation printed, with its ratios, intervals and tables; `read_simulation` is here too
"""

from .journal_writer import write_journal
from .simulated import read_simulation
from .simulation import simulate, simulate_all

__all__ = ["read_simulation", "simulate", "simulate_all", "write_journal"]
