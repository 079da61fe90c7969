"""Runs of a program in each of which one growth of its memory is refused."""
