"""Tests of the viewer, which viewer/tests/run_viewer runs. They are not installed."""
