"""The command line of a tool."""
import argparse
import os
import sys

from .names import as_called


class Parser(argparse.ArgumentParser):
    """Reads a tool's arguments; the help begins with the tool's docstring and ends with an example."""

    def __init__(self, doc, example=None):
        super().__init__(
            prog=os.path.basename(sys.argv[0]),
            description=as_called(doc),
            formatter_class=argparse.RawDescriptionHelpFormatter,
            epilog=example and as_called(example),
        )

    def add_program(self):
        help_text = "the program (BIER_DOMAIN, or ./bier_domain of the repository)"
        self.add_argument("--program", metavar="PATH", help=as_called(help_text))
