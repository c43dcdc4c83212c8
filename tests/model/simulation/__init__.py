"""The model of a simulation: made traffic through one switch of one level of unicast, numbers out. Every number is an
integer, so an answer is exact.

    python3 -m tests.model.simulation simulate SEED SLOTS PORTS [--option VALUE]..     from the top of the repository
"""
