"""Runs of the built program on a real disk, for tests/run_disk."""
