"""Tests of ./toxi over a release: which program is unpacked, where, and what is told where none can be."""
import os
import shutil
import subprocess
import unittest

from repository import CHECKED, COMPILING, HERE, MACHINE, NAME, PATIENCE, Repository


class Releases(Repository):
    def release(self, printed="released"):
        """A release of the present source."""
        self.write(f"packed/{NAME}/bin/toxi", f"#!/bin/sh\necho {printed}\n")
        os.makedirs(os.path.join(self.root, "dist"), exist_ok=True)
        release = """tar -czf dist/$NAME.tar.gz -C packed $NAME
root=.; . launcher/sums.sh; printf '```\nprogram %s\n```\n' $(sum_of_program) > dist/README.md
cd dist; : > toxi-1.2.3-other-linux.tar.gz; sha256sum toxi-1.2.3-other-linux.tar.gz $NAME.tar.gz > SHA256SUMS"""
        subprocess.run(["sh", "-euc", release], cwd=self.root, env={**os.environ, "NAME": NAME}, check=True)

    def released(self):
        """The names of what was unpacked."""
        return os.listdir(os.path.join(self.root, "out", "released"))

    def test_the_released_program_runs_at_once(self):
        self.release()
        for path in (self.environment["PATH"], "/usr/bin:/bin"):
            self.environment["PATH"] = path
            self.assertEqual(self.run_toxi(), (0, "released\n", ""))
        self.assertEqual((self.compiles(), len(self.released())), (0, 1))
        self.release("a later one")
        self.assertEqual(self.run_toxi(), (0, "a later one\n", ""))
        self.assertEqual(len(self.released()), 1)

    def test_calls_at_once_unpack_a_whole_program(self):
        self.release()
        told = []
        for call in [self.start() for _ in range(8)]:
            with call:
                told.append(call.communicate(timeout=PATIENCE))
        self.assertEqual((set(told), len(self.released())), ({("released\n", "")}, 1))

    def test_a_built_program_comes_before_the_released_one(self):
        self.release()
        os.chmod(self.write("crates/toxi/out/toxi", "#!/bin/sh\necho proved\n"), 0o755)
        self.assertEqual(self.run_toxi(), (0, "proved\n", ""))

    def test_a_released_program_of_another_source(self):
        self.release()
        self.write("crates/toxi/src/main.rt", "fn main() { changed() }\n")
        self.assertEqual(self.run_toxi()[1:], ("toxi, a stand-in\n", COMPILING + CHECKED))
        self.environment["PATH"] = "/usr/bin:/bin"
        older = "toxi: the released program is older than its sources; the kit's `rt` isn't on the PATH, which builds the present one\n"
        self.assertEqual(self.run_toxi(), (0, "released\n", older))

    def test_an_archive_of_another_sum_is_refused(self):
        self.release()
        archive = os.path.join(self.root, "dist", NAME + ".tar.gz")
        with open(archive, "ab") as file:
            file.write(b"more")
        refused = f"toxi: dist/{NAME}.tar.gz isn't what was released: its sum isn't that of SHA256SUMS\n"
        self.assertEqual(self.run_toxi()[1:], ("toxi, a stand-in\n", refused + COMPILING + CHECKED))
        self.environment["PATH"] = "/usr/bin:/bin"
        self.assertEqual(self.run_toxi(), (1, "", refused))

    def test_a_clone_that_cant_be_written(self):
        self.release()
        # Not even for root.
        self.write("out", "")
        self.assertEqual(self.run_toxi(), (0, "released\n", ""))
        cache = os.path.join(self.folder, "home", ".cache")
        self.assertEqual(len(os.listdir(os.path.join(cache, "toxi"))), 1)
        shutil.rmtree(cache)

    def test_a_released_program_that_no_folder_takes(self):
        self.release()
        # Not even for root.
        self.write("out", "")
        self.environment["XDG_CACHE_HOME"] = os.path.join(self.root, "out")
        self.environment["PATH"] = "/usr/bin:/bin"
        status, printed, said = self.run_toxi()
        told = f"toxi: dist/{NAME}.tar.gz can't be unpacked into {self.root}/out/released or {self.root}/out/toxi: mkdir: "
        self.assertEqual((status, printed, said[: len(told)], said.count("\n")), (1, "", told, 1))

    def other_machine(self, system, machine):
        """The same on another machine, as `uname` tells."""
        shutil.copytree(os.path.join(HERE, "machine"), os.path.join(self.folder, "machine"))
        self.environment.update(PATH=f"{self.folder}/machine:/usr/bin:/bin", SYSTEM=system, MACHINE=machine)

    def test_another_machine_has_no_program(self):
        self.release()
        self.other_machine("Darwin", "arm64")
        told = "toxi: there is a program for Linux alone, and this is Darwin: docs/INSTALL.md has a container and a virtual machine\n"
        self.assertEqual(self.run_toxi(), (1, "", told))
        self.environment.update(SYSTEM="Linux", MACHINE="riscv64")
        told = "toxi: there is a program for x86-64 and ARM64 (aarch64) alone, and this is riscv64\n"
        self.assertEqual(self.run_toxi(), (1, "", told))

    def test_a_release_of_another_machine_is_left_alone(self):
        self.release()
        self.other_machine("Linux", {"x86_64": "aarch64"}.get(MACHINE, "x86_64"))
        self.assertEqual(self.run_toxi(), (1, "", "toxi: there is no program, and the kit's `rt` isn't on the PATH, which builds one\n"))

    @unittest.skipUnless(os.geteuid() == 0 and shutil.which("unshare"), "it takes root to mount")
    def test_a_clone_that_no_program_runs_from(self):
        """Its folder is mounted noexec: the cache is taken, or what to do is told."""
        self.release()
        out, cache = os.path.join(self.root, "out"), os.path.join(self.folder, "cache")
        for folder in (out, cache):
            os.mkdir(folder)
        mounted = 'mount -t tmpfs -o noexec none "$1"; shift; exec "$@"'
        if subprocess.call(["unshare", "--mount", "sh", "-ec", mounted, "sh", out, "true"], stderr=subprocess.DEVNULL):
            self.skipTest("no mount can be had")
        self.environment.update(PATH="/usr/bin:/bin", XDG_CACHE_HOME=cache)
        shell = ["unshare", "--mount", "sh", "-ec", mounted, "sh"]
        self.assertEqual(self.run_toxi(shell=[*shell, out]), (0, "released\n", ""))
        shutil.rmtree(cache)
        self.environment["XDG_CACHE_HOME"] = os.path.join(out, "cache")
        told = f"toxi: dist/{NAME}.tar.gz can't be unpacked into {out}/released or {out}/cache/toxi: "
        told += f"{out}/cache/toxi is mounted noexec: set XDG_CACHE_HOME to a folder that programs run from\n"
        self.assertEqual(self.run_toxi(shell=[*shell, out]), (1, "", told))
