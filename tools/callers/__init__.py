"""The parts of tools/callers_test.py."""
