"""The parts of tools/expected.py, each of one subject."""
