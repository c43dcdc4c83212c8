"""Tests of what a maintainer calls, which tests/run_dev runs."""
