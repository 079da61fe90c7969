"""The reference: crates, calls with their contracts, and definitions, made from the sources.

docs/CONTRIBUTING.md says how it is used, and tools/reference --help with which words.
"""
