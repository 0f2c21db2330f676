"""The indexed Job of examples/campaign: its pods, one after the other, by `podman kube play`. In a cluster a controller makes them, and here a loop does."""
import importlib.util
import os
import shutil
import tempfile
import unittest

import yaml

from case import NETWORK, ContainerCase
from images import ROOT

CAMPAIGN = os.path.join(ROOT, "examples", "campaign")
IMAGE = "clients"
DOCKERFILE = """\
FROM docker.io/library/python:3-slim
COPY packages /usr/lib/python3/dist-packages
COPY bin /usr/bin
COPY campaign /client
WORKDIR /client
"""
# Of Debian's Python, which is that of the image.
PACKAGES = ("hypothesis", "attr", "sortedcontainers")
COMMANDS = ("find", "merge")
OPTIONS = "--upstream shop=shop:8080 --within 30 --allow-status 7 --fault closed --stream downstream --runs 20 --name page"


@unittest.skipUnless(importlib.util.find_spec("hypothesis"), "apt-get install python3-hypothesis")
class Job(ContainerCase):
    @classmethod
    def setUpClass(cls):
        with open(os.path.join(CAMPAIGN, "job.yaml"), encoding="utf-8") as file:
            cls.job = yaml.safe_load(file)["spec"]
        context = tempfile.mkdtemp()
        cls.addClassCleanup(shutil.rmtree, context)
        packages, programs = (os.path.join(context, name) for name in ("packages", "bin"))
        os.mkdir(programs)
        shutil.copytree(os.path.join(ROOT, "python", "toxi"), os.path.join(packages, "toxi"))
        for name in PACKAGES:
            (place,) = importlib.util.find_spec(name).submodule_search_locations
            shutil.copytree(place, os.path.join(packages, name))
        shutil.copytree(CAMPAIGN, os.path.join(context, "campaign"))
        shutil.copy(cls.program, os.path.join(programs, "toxi"))
        for name in COMMANDS:
            path = os.path.join(programs, f"toxi-{name}")
            with open(path, "w", encoding="utf-8") as file:
                file.write(f'#!/bin/sh\nexec python3 -m toxi.{name}_command "$@"\n')
            os.chmod(path, 0o755)
        dockerfile = os.path.join(context, "Dockerfile")
        with open(dockerfile, "w", encoding="utf-8") as file:
            file.write(DOCKERFILE)
        cls.engine.build(IMAGE, dockerfile, context)

    def setUp(self):
        self.engine.do("volume", "create", "results")
        self.addCleanup(self.engine.do, "volume", "rm", "--force", "results")
        self.engine.do("run", "--detach", "--name", "shop", "--network", NETWORK, IMAGE, "python3", "-m", "http.server", "8080", "--directory", "page")
        self.addCleanup(self.engine.do, *self.engine.remove, "shop")

    def client(self, command):
        """The status of a command in a container of the image, and what it prints and says."""
        return self.engine.call(self.engine.name, "run", "--rm", "--network", NETWORK, "--volume", "results:/results", IMAGE, "sh", "-c", command)

    def pod(self, index):
        """Runs the pod of an index to its end, and returns its status."""
        spec = {**self.job["template"]["spec"]}
        spec["containers"] = [{**each, "env": [{"name": "JOB_COMPLETION_INDEX", "value": str(index)}]} for each in spec["containers"]]
        pod = {"apiVersion": "v1", "kind": "Pod", "metadata": {"name": f"page-{index}"}, "spec": spec}
        with tempfile.NamedTemporaryFile("w", suffix=".yaml", encoding="utf-8") as file:
            yaml.safe_dump(pod, file)
            file.flush()
            self.addCleanup(self.engine.do, "pod", "rm", "--force", "--time", "0", f"page-{index}")
            self.engine.do("kube", "play", "--network", NETWORK, file.name)
        return self.engine.status(f"page-{index}-search")

    def test_its_pods_are_the_shards_of_one_search(self):
        status, printed, said = self.client(f"toxi-find {OPTIONS} --keep-conversation /results/page.conversation -- python3 reads_page.py")
        self.assertEqual(status, 0, said)
        self.assertTrue(printed.startswith("kept /results/page.conversation: connections: 1, "), printed)
        indexes = range(self.job["completions"])
        for index in indexes:
            self.assertEqual(self.pod(index), 0, self.engine.lines(f"page-{index}-search"))
        status, printed, said = self.client(f"toxi-merge {' '.join(f'/results/page-{index}.json' for index in indexes)}")
        self.assertEqual((status, said), (1, ""))
        self.assertTrue(printed.startswith("status 1 in "), printed)
