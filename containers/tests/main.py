"""Run by ../check in namespaces of its own: makes the images, and runs the tests. Where neither podman nor docker runs a container of Debian's at all, the status is 77.

Usage: main.py PROGRAM DEBIAN FOLDER, where PROGRAM is the path of the built program, DEBIAN an archive of Debian's files, and FOLDER the place of images.
"""
import argparse
import os
import sys
import tempfile
import unittest

import images
from case import NETWORK, ContainerCase
from engine import Docker, Podman

TESTS = {Podman: ["image_tests", "pod_tests", "job_tests", "compose_tests"], Docker: ["image_tests", "compose_tests"]}
REFUSED = 77


def started(kind, debian, folder):
    """An engine with the images that the files name, or None where it runs no container."""
    os.mkdir(folder)
    try:
        engine = kind(folder)
        images.import_bases(engine, debian)
        engine.do("network", "create", NETWORK)
        engine.do("run", "--rm", "--network", NETWORK, images.bases()[0], "true")
        return engine
    except AssertionError as why:
        print(f"containers: {kind.name} runs no container here: {why}", flush=True)
        return None


def run_tests(kind, program, debian, folder):
    """The status of the tests with one engine."""
    engine = started(kind, debian, folder)
    if engine is None:
        return REFUSED
    print(f"{kind.name}:", flush=True)
    context = os.path.join(folder, "context")
    images.build(engine, program, context)
    ContainerCase.engine, ContainerCase.program, ContainerCase.context = engine, program, context
    ran = unittest.TextTestRunner().run(unittest.defaultTestLoader.loadTestsFromNames(TESTS[kind]))
    return 0 if ran.wasSuccessful() else 1


def main():
    parser = argparse.ArgumentParser()
    parser.add_argument("program", metavar="PROGRAM")
    parser.add_argument("debian", metavar="DEBIAN")
    parser.add_argument("folder", metavar="FOLDER")
    arguments = parser.parse_args()
    # What the tests write goes with the namespaces too.
    tempfile.tempdir = arguments.folder
    statuses = [run_tests(kind, arguments.program, arguments.debian, os.path.join(arguments.folder, kind.name)) for kind in TESTS]
    sys.exit(1 if 1 in statuses else min(statuses))


if __name__ == "__main__":
    main()
