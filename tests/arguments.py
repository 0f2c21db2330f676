"""The command lines of the tests that stand in this folder."""
import argparse
import os


def program_path(text: str) -> str:
    """The whole path of a program that can be run."""
    if not os.path.isfile(text) or not os.access(text, os.X_OK):
        raise argparse.ArgumentTypeError(f"{text} can't be run")
    return os.path.abspath(text)


def program_parser(document: str) -> argparse.ArgumentParser:
    """A parser of PROGRAM. The first line of the script's text describes it."""
    parser = argparse.ArgumentParser(description=document.partition("\n")[0])
    parser.add_argument("program", metavar="PROGRAM", type=program_path, help="the path of the built program")
    return parser


def drawing_arguments(document: str, count: int) -> argparse.Namespace:
    """PROGRAM, how many inputs are drawn for it, and by which seed."""
    parser = program_parser(document)
    parser.add_argument("count", metavar="COUNT", type=int, nargs="?", default=count, help="how many (default: %(default)s)")
    parser.add_argument("seed", metavar="SEED", type=int, nargs="?", default=1, help="of the draws (default: %(default)s)")
    return parser.parse_args()
