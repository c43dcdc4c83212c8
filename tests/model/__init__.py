"""The reference model of the switch: each rule of docs/SWITCH.md and each text of docs/FORMATS.md as a plain function.

It was written from these rules alone. It shares no code with the crates, the launcher or the package for Python, and
imports nothing but Python's standard library and itself. Where a rule speaks of a set, so does the model: ports are
sets of numbers, a match is a set of entries, a run is the list of its slots. Clarity goes before speed.

    python3 -m tests.model run --slots TABLE PREFIX INPUT..     from the top of the repository: as the program, slowly
"""
