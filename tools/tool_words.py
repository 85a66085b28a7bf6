"""What the tools beside the program share: words whose help is the tool's docstring, and an end without a trace where nobody reads."""
import argparse
import os
import sys


class Words(argparse.ArgumentParser):
    def __init__(self, name, text):
        super().__init__(prog=f"tools/{name}")
        self.text = text

    def format_help(self):
        return self.text.strip() + "\n"

    def error(self, message):
        print(f"{self.prog}: {message}; --help says what it takes", file=sys.stderr)
        sys.exit(2)


def run(main):
    """Ends the program with the status of `main`; with 6, as hwal does, where the output can't be written."""
    try:
        status = main()
        sys.stdout.flush()
    except BrokenPipeError:
        os.dup2(os.open(os.devnull, os.O_WRONLY), sys.stdout.fileno())
        status = 6
    except KeyboardInterrupt:
        status = 130
    sys.exit(status)


def counted(count, word):
    """`1 entry`, `2 entries`."""
    many = word[:-1] + "ies" if word.endswith("y") else word + "s"
    return f"{count:,} {word if count == 1 else many}"
