#!/usr/bin/env python3
"""What packaging/owner.toml gives of the names and addresses that a publication has."""
import argparse
import sys
import tomllib
from pathlib import Path
from typing import Dict

FILE = Path(__file__).resolve().parent / "owner.toml"
FIELDS = {
    "home": "the URL of the page that tells of Toxi",
    "source": "the URL of the repository",
    "issues": "the URL where bugs are reported",
    "contact": "who answers for the packages, as `Name <name@host>`",
    "go": "the path of the Go module",
    "npm": "the scope of the npm packages, with its @",
    "maven": "the group of the jars, and the name of their Java package",
}
# The fields that are URLs, by what a Python package calls them.
URLS = {"Homepage": "home", "Source": "source", "Issues": "issues"}


def owner() -> Dict[str, str]:
    """The fields that are given. Ends the program where the file has others."""
    given = tomllib.loads(FILE.read_text(encoding="utf-8"))
    for name in given.keys() - FIELDS.keys():
        sys.exit(f"{FILE.name} has the field {name}, which isn't one of {', '.join(FIELDS)}")
    return given


def main() -> int:
    parser = argparse.ArgumentParser(description=__doc__)
    parser.add_argument("field", nargs="?", choices=FIELDS, help="prints this field, or nothing where it isn't given")
    parser.add_argument("--missing", action="store_true", help="lists what isn't given, with status 1 if anything isn't")
    arguments = parser.parse_args()
    given = owner()
    if arguments.field:
        print(given.get(arguments.field, ""))
        return 0
    missing = [name for name in FIELDS if name not in given]
    for name in missing:
        print(f"packaging/owner.toml lacks {name}: {FIELDS[name]}")
    return 1 if missing else 0


if __name__ == "__main__":
    sys.exit(main())
