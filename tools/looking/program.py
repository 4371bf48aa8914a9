# The command that is asked for answers.
import argparse
import os
import shlex

TOP = os.path.dirname(os.path.dirname(os.path.dirname(os.path.realpath(__file__))))


def command(text):
    """The words of a command line."""
    words = shlex.split(text)
    if not words:
        raise argparse.ArgumentTypeError("no command")
    return words


def add_option(parser):
    """--program, by default the patch program."""
    default = [os.path.join(TOP, "tools", "run"), "patch"]
    parser.add_argument("--program", type=command, default=default, help="command to ask in place of `tools/run patch`")
