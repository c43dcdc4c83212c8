"""Tests of the tools for traffic, sweeps and figures, which tests/run_measures runs."""
