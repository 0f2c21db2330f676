"""compose.yaml, by podman-compose or docker-compose."""
import os

from case import FOLDER, ContainerCase


class Compose(ContainerCase):
    def compose(self, *words):
        return self.engine.run(self.engine.compose, "--project-name", "toxi", "--file", os.path.join(FOLDER, "compose.yaml"), *words)

    def container(self, service):
        return self.engine.do("ps", "--all", "--filter", f"label=com.docker.compose.service={service}", "--format", "{{.Names}}").strip()

    def test_the_tests_reach_the_service(self):
        self.addCleanup(self.compose, "down")
        self.compose("up", "--exit-code-from", "tests")
        self.check_answer(self.engine.do("logs", self.container("tests")))
        toxi = self.container("toxi")
        self.engine.do("stop", toxi)
        self.check_totals(toxi, links=1)
