"""Shared by the tests: paths, counted checks, and the runner of test scripts."""
