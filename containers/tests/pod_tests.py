"""The pod of sidecar.yaml, by `podman kube play`. What a kubelet alone does is read: the probes, which are run here, and the Service."""
import json
import os
import signal
import socket
import time

import yaml

from case import FOLDER, ContainerCase
from engine import wait_until

SIDECAR = os.path.join(FOLDER, "sidecar.yaml")
# A container that joins a pod may take over that it is restarted.
CLIENT = ["--restart", "no", "--volume", f"{os.path.join(FOLDER, 'files')}:/files:ro"]
IMAGE = "python:3-slim"
ASK = "exec python3 /files/client.py"
LISTENING = "listening shop [::]:18080"
UNITS = {"Mi": 2**20, "m": 1e-3, "": 1}
# The kinds of probes in the order in which a kubelet runs them.
PROBES = ("startupProbe", "readinessProbe")
# How long a kubelet waits for a probe unless the file tells, in seconds.
PROBE_TIME = 1


def amount(text):
    """The number that a quantity of Kubernetes means."""
    number = text.rstrip("".join(UNITS))
    return float(number) * UNITS[text[len(number) :]]


class Pod(ContainerCase):
    @classmethod
    def setUpClass(cls):
        with open(SIDECAR, encoding="utf-8") as file:
            documents = {each["kind"]: each for each in yaml.safe_load_all(file)}
        cls.files, cls.pod, cls.service = (documents[kind] for kind in ("ConfigMap", "Pod", "Service"))
        cls.containers = {each["name"]: each for each in cls.pod["spec"]["containers"]}

    def play(self):
        """Starts the pod, and waits by its probes."""
        self.addCleanup(self.engine.do, "volume", "rm", "--force", "toxi")
        self.addCleanup(self.engine.do, "pod", "rm", "--force", "--time", "0", "shop")
        self.engine.do("kube", "play", SIDECAR)
        wait_until(self.is_ready, "the pod is ready")
        self.assertEqual(self.engine.lines("shop-toxi"), [LISTENING])

    def is_ready(self):
        """Whether each probe of the pod succeeds, as a kubelet runs them."""
        probes = [(name, each[kind]) for kind in PROBES for name, each in self.containers.items() if kind in each]
        self.assertEqual({name for name, _ in probes}, set(self.containers))
        return all(self.succeeds(name, probe) for name, probe in probes)

    def succeeds(self, name, probe):
        """Whether a probe of a container succeeds: a command in it, or a connection from the node to the pod's address."""
        if "exec" in probe:
            return self.engine.call("podman", "exec", f"shop-{name}", *probe["exec"]["command"])[0] == 0
        try:
            socket.create_connection((self.address()[1], probe["tcpSocket"]["port"]), PROBE_TIME).close()
            return True
        except OSError:
            return False

    def answer(self, url, *options):
        return self.engine.do("run", "--rm", *options, *CLIENT, IMAGE, "sh", "-c", f"{ASK} {url}")

    def address(self):
        """The pod's network, and its address there."""
        infra = self.engine.do("pod", "inspect", "--format", "{{.InfraContainerID}}", "shop").strip()
        ((network, settings),) = json.loads(self.engine.do("inspect", infra))[0]["NetworkSettings"]["Networks"].items()
        return network, settings["IPAddress"]

    def test_clients_of_the_pod_and_others_reach_the_service(self):
        self.play()
        for host in ("127.0.0.1", "[::1]"):
            self.check_answer(self.answer(f"http://{host}:18080/", "--pod", "shop"))
        network, address = self.address()
        self.check_answer(self.answer(f"http://{address}:18080/", "--network", network))
        self.engine.do("stop", "shop-toxi")
        self.check_totals("shop-toxi", links=3)
        self.assertFalse(self.is_ready())

    def test_probes_take_no_number(self):
        self.play()
        for _ in range(10):
            self.assertTrue(self.is_ready())
        self.check_answer(self.answer("http://127.0.0.1:18080/", "--pod", "shop"))
        numbers = [line.split()[2] for line in self.engine.lines("shop-toxi") if line.startswith("link")]
        self.assertEqual(numbers, ["1"])

    def test_a_client_that_comes_before_toxi(self):
        self.play()
        self.engine.do("stop", "shop-toxi")
        waiting = f"toxi wait localhost:18081 && {ASK} http://127.0.0.1:18080/"
        client = self.engine.do("run", "--detach", "--pod", "shop", *CLIENT, "--volume", f"{self.program}:/usr/bin/toxi:ro", IMAGE, "sh", "-c", waiting).strip()
        time.sleep(1)
        self.engine.do("start", "shop-toxi")
        self.assertEqual(self.engine.status(client), 0)
        self.check_answer(self.engine.do("logs", client))
        self.engine.do("stop", "shop-toxi")
        self.check_totals("shop-toxi", links=1)

    def test_a_container_that_is_restarted_counts_anew(self):
        self.play()
        for _ in range(2):
            self.check_answer(self.answer("http://127.0.0.1:18080/", "--pod", "shop"))
        os.kill(int(self.engine.do("inspect", "--format", "{{.State.Pid}}", "shop-toxi")), signal.SIGTERM)
        wait_until(lambda: self.engine.lines("shop-toxi").count(LISTENING) == 2, "Toxi listens again")
        self.check_answer(self.answer("http://127.0.0.1:18080/", "--pod", "shop"))
        numbers = [line.split()[2] for line in self.engine.lines("shop-toxi") if line.startswith("link")]
        self.assertEqual(numbers, ["1", "2", "1"])

    def test_its_rights(self):
        """The container has the limits of the file, no capability, and no file that it may write."""
        self.play()
        limits = self.containers["toxi"]["resources"]["limits"]
        settings = json.loads(self.engine.do("inspect", "shop-toxi"))[0]
        host = settings["HostConfig"]
        self.assertEqual((host["Memory"], host["NanoCpus"]), (amount(limits["memory"]), amount(limits["cpu"]) * 1e9))
        self.assertEqual((host["ReadonlyRootfs"], settings["EffectiveCaps"] or [], settings["Config"]["User"]), (True, [], "65532:65532"))

    def test_its_script_is_that_of_compose(self):
        with open(os.path.join(FOLDER, "files", "script.toml"), encoding="utf-8") as file:
            self.assertEqual(self.files["data"]["script.toml"], file.read())

    def test_the_service_leads_to_toxi(self):
        spec = self.service["spec"]
        self.assertEqual(self.pod["metadata"]["labels"], spec["selector"])
        ports = [port["name"] for port in self.containers["toxi"]["ports"]]
        self.assertEqual([port["targetPort"] for port in spec["ports"]], ports)
