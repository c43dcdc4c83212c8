"""Tests of the WebAssembly module of the proved scheduler and of the playground, which tests/run_module runs."""
