"""Writes the schema of scripts to standard output, as docs/script.schema.json has it."""

import argparse
import sys

from waplay_tools.reporting import schema


def main() -> int:
    """Prints the schema."""
    argparse.ArgumentParser(prog="tools/makeschema", description=__doc__).parse_args()
    sys.stdout.write(schema.text())
    return 0


if __name__ == "__main__":
    sys.exit(main())
