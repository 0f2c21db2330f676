"""The images of the tests: those that the files name, and Toxi's own."""
import glob
import os
import re
import shutil

from case import FOLDER

ROOT = os.path.dirname(FOLDER)
MACHINE = os.uname().machine
# What images of Debian have, and an archive of files hasn't.
PATH = "ENV PATH=/usr/local/sbin:/usr/local/bin:/usr/sbin:/usr/bin:/sbin:/bin"


def bases():
    """The images that the files name, without Toxi's own."""
    found = set()
    for name in ("compose.yaml", "sidecar.yaml"):
        with open(os.path.join(FOLDER, name), encoding="utf-8") as file:
            found.update(re.findall(r"^ *image: (\S+:\S+)", file.read(), re.M))
    return sorted(found)


def import_bases(engine, debian):
    """Debian's files stand for each of them."""
    first, *others = [f"docker.io/library/{name}" for name in bases()]
    engine.do("import", "--change", PATH, debian, first)
    for name in others:
        engine.do("tag", first, name)


def build(engine, program, context):
    """Builds Toxi's image of what a build sends, with this program in the place of the released one."""
    shutil.copytree(FOLDER, os.path.join(context, "containers"))
    shutil.copy(os.path.join(ROOT, ".dockerignore"), context)
    (released,) = glob.glob(os.path.join(ROOT, "dist", f"toxi-*-{MACHINE}-linux.tar.gz"))
    dist, unpacked = os.path.join(context, "dist"), os.path.join(context, "unpacked")
    for folder in (dist, unpacked):
        os.mkdir(folder)
    engine.run("tar", "-xzf", released, "-C", unpacked)
    (top,) = os.listdir(unpacked)
    shutil.copy(program, os.path.join(unpacked, top, "bin", "toxi"))
    engine.run("tar", "-czf", os.path.join(dist, os.path.basename(released)), "-C", unpacked, top)
    # A copy of each released archive lies beside it, as in a clone.
    for other in glob.glob(os.path.join(ROOT, "dist", "toxi-*-linux.tar.gz")):
        if other != released:
            shutil.copy(other, dist)
    engine.build("toxi", os.path.join(context, "containers", "Dockerfile"), context)
