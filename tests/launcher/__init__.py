"""Tests of the launcher, with a toolchain and a program that are made up; tests/run_launcher runs them."""
