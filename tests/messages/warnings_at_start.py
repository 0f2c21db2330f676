"""What `check` finds in what is served, told as `serve` starts."""
import os
import subprocess

PATIENCE = 60
CONFIG = '[{"name":"shop","listen":"localhost:0","upstream":"http://localhost:1"}]'
RULE = '[[rule]]\nproxy = "shp"\nfirst = 1\n'
FOUND = ["proxy shop upstream has a scheme: http://localhost:1", "rule 1 never applies: no proxy shp (shop?)"]
SERVE = ["serve", "--config", "proxies.json", "--script", "script.toml", "--seed", "1"]
INLINE = ["serve", "--listen", "localhost:0", "--upstream", "localhost:1", "--down", "reset_peer:toxicity=1", "--seed", "1"]


def write(folder, rules):
    for name, text in (("proxies.json", CONFIG), ("script.toml", RULE * rules)):
        with open(os.path.join(folder, name), "w", encoding="utf-8") as file:
            file.write(text)


def served(program, folder, *options, command=SERVE):
    """The lines on standard output and on standard error of a start, once the proxy listens."""
    with subprocess.Popen([program, *command, *options], stdin=subprocess.DEVNULL, stdout=subprocess.PIPE, stderr=subprocess.PIPE, cwd=folder, encoding="utf-8") as child:
        printed = []
        try:
            while not printed or "listening" not in printed[-1]:
                line = child.stdout.readline()
                assert line, "it has ended"
                printed.append(line.rstrip("\n"))
        finally:
            child.kill()
        return printed[:-1], child.stderr.read().splitlines()


def tells_findings(program, folder):
    write(folder, 1)
    told = [f"toxi: warning: {line}" for line in FOUND]
    assert served(program, folder) == ([], told)
    assert served(program, folder, "--workers", "1") == ([], told)
    assert served(program, folder, "--quiet") == ([], [])
    assert served(program, folder, "--verbose") == (FOUND, told)
    assert served(program, folder, "--verbose", "--quiet") == (FOUND, [])
    printed, said = served(program, folder, "--json", "--verbose")
    assert said == told and len(printed) == 2 and all(line.startswith('{"event":"warning","text":"') for line in printed), printed


def tells_of_a_command_line(program, folder):
    assert served(program, folder, command=INLINE) == ([], ["toxi: warning: rule 1 toxic 1 seldom applies: toxicity 1 is a thousandth"])


def tells_twenty(program, folder):
    for rules, more in ((19, []), (20, ["toxi: warning: and 1 more"]), (3000, ["toxi: warning: and 2981 more"])):
        write(folder, rules)
        _, said = served(program, folder)
        assert len(said) == 20 + len(more) and said[20:] == more, (rules, said[19:])


def tells_nothing_of_faults(program, folder):
    """A start that is refused tells its fault."""
    write(folder, 1)
    with open(os.path.join(folder, "script.toml"), "a", encoding="utf-8") as file:
        file.write("first = 2\n")
    ran = subprocess.run([program, *SERVE], stdin=subprocess.DEVNULL, capture_output=True, cwd=folder, timeout=PATIENCE, encoding="utf-8", check=False)
    assert (ran.returncode, ran.stdout, ran.stderr) == (1, "", "toxi: S1 NotToml\n"), ran


CASES = [tells_findings, tells_of_a_command_line, tells_twenty, tells_nothing_of_faults]
