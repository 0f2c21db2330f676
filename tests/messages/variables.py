"""The options of `serve` that the environment gives, and what is told of them."""
import os
import subprocess
from pathlib import Path

PATIENCE = 60
# It ends at once, since its input has ended.
SERVE = ["serve", "--until-eof", "--quiet"]
ENDED = "toxi: standard input has ended: serve ends\n"
POPULATE = '[{"name":"shop","listen":"127.0.0.1:0","upstream":"127.0.0.1:1"}]'
INLINE = ["--listen", "127.0.0.1:0", "--upstream", "127.0.0.1:1"]
FILES = {"TOXI_CONFIG": "proxies.json", "TOXI_SCRIPT": "/dev/null"}


def served(program, folder, options, variables):
    """The status of `serve` with these options and variables, its output and its standard error."""
    Path(folder, "proxies.json").write_text(POPULATE, encoding="utf-8")
    ran = subprocess.run(
        [program, *SERVE, *options],
        env=os.environ | variables,
        stdin=subprocess.DEVNULL,
        capture_output=True,
        cwd=folder,
        timeout=PATIENCE,
        encoding="utf-8",
        errors="surrogateescape",
        check=False,
    )
    return ran.returncode, ran.stdout, ran.stderr


def told(program, folder, options, variables):
    """What a `serve` that serves tells of the environment."""
    status, output, said = served(program, folder, options, variables)
    # An input that has ended may end it before it listens.
    assert status == 0 and ENDED in said, (status, output, said)
    return said.replace(ENDED, "").splitlines()


def serves_by_the_environment_alone(program, folder):
    variables = FILES | {"TOXI_SEED": "7", "TOXI_WORKERS": "2"}
    found = told(program, folder, [], variables)
    assert found == ["toxi: TOXI_CONFIG=proxies.json", "toxi: TOXI_SCRIPT=/dev/null", "toxi: TOXI_SEED=7", "toxi: TOXI_WORKERS=2"], found


def the_command_line_beats_it(program, folder):
    wrong = {"TOXI_CONFIG": "none", "TOXI_SCRIPT": "none", "TOXI_SEED": "none", "TOXI_WORKERS": "none"}
    found = told(program, folder, ["--config", "proxies.json", "--script", "/dev/null", "--seed", "1", "--workers", "1"], wrong)
    assert found == [], found
    found = told(program, folder, [*INLINE, "--any-seed", "--workers", "1"], wrong)
    assert len(found) == 1 and found[0].startswith("toxi: seed "), found


def a_variable_without_a_value_is_not_set(program, folder):
    found = told(program, folder, [*INLINE, "--seed", "1"], {"TOXI_WORKERS": ""})
    assert found == [], found
    status, _, said = served(program, folder, INLINE, {"TOXI_SEED": ""})
    assert status == 2 and "  --seed <N>\n" in said, said


def what_it_has_is_refused_by_name(program, folder):
    for name, value in (("TOXI_SEED", "-1"), ("TOXI_SEED", str(2**64)), ("TOXI_WORKERS", "65"), ("TOXI_WORKERS", "two\nlines"), ("TOXI_SEED", "\udcff")):
        status, output, said = served(program, folder, INLINE, {"TOXI_SEED": "1", name: value})
        assert (status, output) == (2, "") and f"the variable {name}" in said.splitlines()[0], (name, value, said)
    status, _, said = served(program, folder, [], {"TOXI_SEED": "7", "TOXI_CONFIG": "none", "TOXI_SCRIPT": "none"})
    assert status == 1 and said.replace(ENDED, "").endswith("toxi: TOXI_SEED=7\ntoxi: P1 FileFault none\n"), said


def other_commands_read_none(program, folder):
    Path(folder, "proxies.json").write_text(POPULATE, encoding="utf-8")
    for command in ("check", "forecast", "pick"):
        variables = os.environ | FILES | {"TOXI_SEED": "1"}
        ran = subprocess.run([program, command], env=variables, capture_output=True, cwd=folder, timeout=PATIENCE, encoding="utf-8", check=False)
        assert ran.returncode == 2 and "  --config <FILE>\n  --script <FILE>\n" in ran.stderr, ran.stderr


CASES = [
    serves_by_the_environment_alone,
    the_command_line_beats_it,
    a_variable_without_a_value_is_not_set,
    what_it_has_is_refused_by_name,
    other_commands_read_none,
]
