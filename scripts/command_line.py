"""The words of a script: `--help` tells them on standard output, and wrong ones are one clear line, as every other fault is."""
import argparse

from texts import BadText


class Words(argparse.ArgumentParser):
    """A parser whose help is the text at the head of the script, as it stands there."""

    def __init__(self, text, **options):
        super().__init__(description=text, formatter_class=argparse.RawDescriptionHelpFormatter, allow_abbrev=False, **options)

    def error(self, message):
        raise BadText(f"{message}; {self.prog.split('/')[-1]} --help tells the words")
