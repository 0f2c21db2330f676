"""`examples/from-toxiproxy`: each toxic from each form of a setup, read again by `toxi pick`."""
import json
import os
import shlex
import subprocess
import tempfile
import time
import unittest

ROOT = os.path.dirname(os.path.dirname(os.path.dirname(os.path.abspath(__file__))))
FROM_TOXIPROXY = os.path.join(ROOT, "examples", "from-toxiproxy")
# Each toxic with attributes as Toxiproxy's README has them, and its short form under `toxi pick`.
TOXICS = [
    ("latency", {"latency": 1000, "jitter": 50}, "latency:latency=1000,jitter=50"),
    ("bandwidth", {"rate": 30}, "bandwidth:rate=30"),
    ("slow_close", {"delay": 500}, "slow_close:delay=500"),
    ("timeout", {"timeout": 0}, "timeout:timeout=0"),
    ("reset_peer", {"timeout": 2000}, "reset_peer:timeout=2000"),
    ("slicer", {"average_size": 64, "size_variation": 32, "delay": 10}, "slicer:average_size=64,size_variation=32,delay=10"),
    ("limit_data", {"bytes": 4096}, "limit_data:bytes=4096"),
]
STREAMS = ("upstream", "downstream")
FIRST = "proxy shop listen 127.0.0.1:26379 upstream 127.0.0.1:6379 "
SHOP = {"name": "shop", "listen": "127.0.0.1:26379", "upstream": "127.0.0.1:6379", "enabled": True}
UNKNOWN = "for the proxy `{}`, which nothing before it creates: name the populate file too, before this one"
CREATE = "toxiproxy-cli create -l 127.0.0.1:26379 -u 127.0.0.1:6379 shop\n"


class FromToxiproxyTests(unittest.TestCase):
    def setUp(self):
        folder = tempfile.TemporaryDirectory()
        self.addCleanup(folder.cleanup)
        self.folder = folder.name

    def convert(self, *texts, names=("setup", "more")):
        """The status, and what has no counterpart. Each text is a file of its own."""
        files = names[: len(texts)]
        for name, text in zip(files, texts):
            with open(os.path.join(self.folder, name), "w") as file:
                file.write(text)
        ran = subprocess.run(
            [FROM_TOXIPROXY, *files, "p.json", "s.toml"], cwd=self.folder, capture_output=True, text=True, check=False
        )
        self.assertEqual(ran.stdout, "")
        return ran.returncode, [line[len("from-toxiproxy: ") :] for line in ran.stderr.splitlines()]

    def picked(self, stream="downstream"):
        """The lines of a connection's pick."""
        files = ["--config", "p.json", "--script", "s.toml", "--proxy", "shop"]
        command = [os.environ["TOXI"], "pick", *files, "--conn", "5", "--stream", stream, "--seed", "1"]
        return subprocess.run(command, cwd=self.folder, capture_output=True, text=True, check=True).stdout.splitlines()

    def toxic(self, **changed):
        return {"type": "latency", "stream": "downstream", "toxicity": 1, "attributes": {"latency": 5}, **changed}

    def convert_toxic(self, **changed):
        return self.convert(json.dumps([{**SHOP, "toxics": [self.toxic(**changed)]}]))

    def check_each_toxic(self, stream):
        shown = [f"{place} applied {short},toxicity=1000 {stream}{place}" for place, (_, _, short) in enumerate(TOXICS)]
        self.assertEqual(self.picked(stream), [FIRST + "enabled", *shown])
        self.passes_check()

    def passes_check(self):
        """Each rule of the result applies, and so does each toxic. The timeout among them leaves some of the others nothing to do."""
        command = [os.environ["TOXI"], "check", "--config", "p.json", "--script", "s.toml"]
        ran = subprocess.run(command, cwd=self.folder, capture_output=True, text=True, check=False)
        self.assertEqual((ran.returncode, ran.stderr), (0, ""))
        for line in ran.stdout.splitlines():
            self.assertTrue(line.endswith(" changes nothing: a timeout drops all data"), line)

    def test_each_toxic_of_get_proxies(self):
        toxics = [
            self.toxic(type=kind, stream=stream, name=f"{stream}{place}", attributes=attributes)
            for stream in STREAMS
            for place, (kind, attributes, _) in enumerate(TOXICS)
        ]
        self.assertEqual(self.convert(json.dumps({"shop": {**SHOP, "toxics": toxics}})), (0, []))
        for stream in STREAMS:
            self.check_each_toxic(stream)

    def test_each_toxic_of_a_shell_script(self):
        text = CREATE
        for stream in STREAMS:
            for place, (kind, attributes, _) in enumerate(TOXICS):
                pairs = " ".join(f"-a {key}={value}" for key, value in attributes.items())
                text += f"toxiproxy-cli toxic add -t {kind} {pairs} -n {stream}{place} --{stream} shop\n"
        self.assertEqual(self.convert(text), (0, []))
        for stream in STREAMS:
            self.check_each_toxic(stream)

    def test_a_whole_shell_script(self):
        text = "#!/bin/sh\n# toxiproxy-cli create nothing\nset -e\n"
        text += "if ! /usr/bin/toxiproxy-cli -h localhost:8474 create shop --listen=127.0.0.1:26379 \\\n"
        text += "   --upstream 127.0.0.1:6379 > /dev/null; then exit 1; fi\n"
        text += "docker exec t toxiproxy-cli toxic add shop -u --type latency --attribute latency=7 --toxicity 0.25 && echo done\n"
        text += "toxiproxy-cli t a -t latency -a latency=8 -d shop 2>&1; toxiproxy-cli list\n"
        text += "toxiproxy-cli create -u a:1 a && toxiproxy-cli create -u b:2 b || toxiproxy-cli t a -t timeout b >> log 2>&1\n"
        self.assertEqual(self.convert(text), (0, []))
        self.assertIn(self.picked("upstream")[1].split()[1], ("applied", "skipped"))
        self.assertEqual(self.picked("upstream")[1].split()[2:], ["latency:latency=7,jitter=0,toxicity=250", "latency_upstream"])
        self.assertEqual(self.picked()[1], "0 applied latency:latency=8,jitter=0,toxicity=1000 latency_downstream")
        with open(os.path.join(self.folder, "p.json")) as file:
            self.assertEqual([proxy["name"] for proxy in json.load(file)], ["shop", "a", "b"])
        with open(os.path.join(self.folder, "s.toml")) as file:
            self.assertEqual(file.read().count('proxy = "b"'), 1)

    def test_a_populate_file(self):
        with open(os.path.join(ROOT, "examples", "proxies.json")) as file:
            status, missing = self.convert(file.read())
        self.assertEqual((status, len(missing)), (3, 1))
        self.assertEqual(self.picked(), ["proxy shop listen localhost:18080 upstream localhost:8080 enabled"])

    def test_order_of_toxics(self):
        toxics = [self.toxic(name=name, attributes={"latency": place}) for place, name in enumerate("cab")]
        self.assertEqual(self.convert(json.dumps({"shop": {**SHOP, "toxics": toxics}})), (0, []))
        self.assertEqual([line.split()[-1] for line in self.picked()[1:]], list("cab"))

    def check_toxicities(self, pairs):
        """Converts a toxic with each toxicity, and checks the thousandths that are picked. Returns what was named."""
        toxics = [self.toxic(name=f"t{place}", toxicity=toxicity) for place, (toxicity, _) in enumerate(pairs)]
        _, missing = self.convert(json.dumps([{**SHOP, "toxics": toxics}]))
        picked = [line.split()[2].rpartition("=")[2] for line in self.picked()[1:]]
        self.assertEqual(picked, [str(thousandths) for _, thousandths in pairs])
        return missing

    def test_toxicities(self):
        self.assertEqual(self.check_toxicities([(1, 1000), (1.0, 1000), (0.5, 500), (0.001, 1), (0, 0)]), [])
        inexact = [(0.0004, 0), (0.0016, 2), (2, 1000), (-1, 0)]
        for (_, thousandths), named in zip(inexact, self.check_toxicities(inexact)):
            self.assertIn(f"{thousandths} are taken", named)
        self.assertEqual(len(self.check_toxicities(inexact)), len(inexact))

    def test_an_open_quote_is_looked_for_once(self):
        text = f"{CREATE}echo curl isn't there\n" + "echo a line of a script\n" * 3000
        begun = time.monotonic()
        self.assertEqual(self.convert(text), (3, ["line 2: its quotes can't be read"]))
        self.assertLess(time.monotonic() - begun, 10)

    def test_what_is_told_keeps_to_its_line(self):
        text = CREATE + "curl localhost:8474/proxies/shop/toxics -d '{\n\x1b[31m'\n"
        self.assertEqual(self.convert(text), (3, ["line 2: `{\\x0a\\x1b[31m` isn't JSON"]))

    def test_a_sleep_past_all_time(self):
        text = f"{CREATE}sleep {'9' * 400}\ntoxiproxy-cli toxic add -t timeout shop\n"
        self.assertEqual(self.convert(text), (0, []))

    def test_what_has_no_counterpart(self):
        for changed in ({"type": "noop"}, {"type": "down"}, {"attributes": {"latency": -1}}, {"attributes": {"latency": 1.5}}):
            self.assertEqual(self.convert_toxic(**changed)[0], 3)
            self.assertEqual(self.picked(), [FIRST + "enabled"])
        self.assertEqual(self.convert_toxic(attributes={"latency": 5, "rate": 1})[0], 3)
        self.assertEqual(self.convert(json.dumps({"shop": {**SHOP, "enabled": False}}))[0], 3)
        self.assertEqual(self.picked(), [FIRST + "disabled"])

    def test_commands_that_have_no_counterpart(self):
        for command in ("toggle shop", "delete shop", "toxic remove -n slow shop", "toxic update -n slow -a latency=1 shop"):
            status, missing = self.convert(f"{CREATE}toxiproxy-cli {command}\n")
            self.assertEqual((status, missing[0].split("`")[0]), (3, "line 2: "))
            self.assertEqual(shlex.split(command)[0], missing[0].split("`")[1].split()[0])
        for command in ("toxic add -t latency mail", "toxic add shop", "create a", "create -u $HOST a", "create 'a"):
            self.assertEqual(self.convert(f"{CREATE}toxiproxy-cli {command}\n")[0], 3)

    def test_a_toxic_that_is_added_to_a_running_proxy(self):
        text = f"sleep 3\n{CREATE}toxiproxy-cli toxic add -t latency -n sleep shop\necho \"now\nsleep 1m; toxiproxy-cli toxic add -t timeout shop\n"
        text += "sleep $LONG 0.5s\nhttp :8474/proxies/shop/toxics type=slicer attributes[average_size]:=9\ntoxiproxy-cli toxic add -t slow_close shop\n"
        self.assertEqual(self.convert(text), (0, []))
        with open(os.path.join(self.folder, "s.toml")) as file:
            *comments, version = [file.readline() for _ in range(3)]
        self.assertEqual(version, "version = 2\n")
        for line, (number, age, millis) in zip(comments, ((2, "60 s", 60000), (3, "60.5 s", 60500))):
            added = f'# Proxy "shop", toxic {number}: added to the running proxy, after {age}.'
            self.assertEqual(line, f"{added} With from = {millis} it begins when a link is {age} old.\n")
        self.assertEqual(len(self.picked()), 5)

    def test_attributes_that_toxiproxy_lacks(self):
        for key in ("until", "from", "after"):
            status, missing = self.convert_toxic(type="timeout", attributes={"timeout": 5, key: 1})
            self.assertEqual((status, missing), (3, [f"proxy shop, toxic 1: `timeout` has no attribute `{key}`"]))

    def each_toxic_of(self, create, calls):
        """Converts a script that creates the proxy and adds each toxic by one of the calls in turn. A call gets its URL and its body."""
        text = create
        for stream in STREAMS:
            for place, (kind, attributes, _) in enumerate(TOXICS):
                body = {"type": kind, "stream": stream, "name": f"{stream}{place}", "attributes": attributes}
                text += calls[place % len(calls)]("localhost:8474/proxies/shop/toxics", body) + "\n"
        self.assertEqual(self.convert(text), (0, []), text)
        for stream in STREAMS:
            self.check_each_toxic(stream)

    def test_each_toxic_of_curl(self):
        create = "#!/bin/sh\ncurl -sSf -X POST \"$API/proxies\" -H 'Content-Type: application/json' -o /dev/null -d '{\n  \"name\": \"shop\",\n"
        create += '  "listen": "127.0.0.1:26379", "upstream": "127.0.0.1:6379"\n}\' || exit 1\n'
        calls = (
            lambda url, body: f"docker exec t /usr/bin/curl -fsXPOST http://{url}/ --data-raw {shlex.quote(json.dumps(body, indent=1))} > log 2>&1",
            lambda url, body: f"curl {url} -d @- <<EOF && echo done\n{json.dumps(body, indent=1)}\nEOF",
            lambda url, body: f'curl --fail --json "{json.dumps(body)}" {url}'.replace('"', '\\"').replace('\\"{', '"{').replace('}\\" l', '}" l'),
            lambda url, body: f"cat <<- 'END' | curl --request post \\\n --data-binary @- {url}\n{json.dumps(body)}\n\tEND",
        )
        self.each_toxic_of(create, calls)

    def test_each_toxic_of_httpie(self):
        def items(url, body):
            nested = " ".join(f"'attributes[{key}]:={value}'" for key, value in body["attributes"].items())
            return f"http --check-status -b POST {url} Accept:application/json type={body['type']} stream={body['stream']} name={body['name']} {nested}"

        calls = (
            items,
            lambda url, body: f"echo {shlex.quote(json.dumps(body))} | http {url} | jq .",
            lambda url, body: f"https --timeout 5 POST {url} <<< {shlex.quote(json.dumps(body))}",
            lambda url, body: f"xh {url} type={body['type']} stream={body['stream']} name={body['name']} attributes:={shlex.quote(json.dumps(body['attributes']))}",
            lambda url, body: f"http --raw {shlex.quote(json.dumps(body))} {url}",
        )
        self.each_toxic_of("http :8474/proxies name=shop listen=127.0.0.1:26379 upstream=127.0.0.1:6379 enabled:=true\n", calls)

    def test_populate_and_toxicities_of_calls(self):
        body = json.dumps([SHOP, {"name": "mail", "upstream": "localhost:25", "enabled": False}])
        text = f"curl -X POST localhost:8474/populate -d '{body}'\nhttp :8474/proxies/mail/toxics type=timeout toxicity:=0.25\n"
        self.assertEqual(self.convert(text)[0], 3)
        with open(os.path.join(self.folder, "s.toml")) as file:
            self.assertIn('toxicity = "0.25"', file.read())
        with open(os.path.join(self.folder, "p.json")) as file:
            self.assertEqual([(proxy["name"], proxy["enabled"]) for proxy in json.load(file)], [("shop", True), ("mail", False)])

    def test_calls_that_have_no_counterpart(self):
        for call, named in (
            ("curl -X DELETE localhost:8474/proxies/shop", "`DELETE /proxies/shop` changes a proxy while it runs"),
            ("curl -d '{}' localhost:8474/proxies/shop/toxics/slow", "`POST /proxies/shop/toxics/slow` for the toxic `slow`, which the proxy `shop` doesn't have"),
            ("curl -XPOST localhost:8474/reset", "`POST /reset` changes a proxy while it runs"),
            ("xh PATCH :8474/proxies/shop enabled:=false", "`PATCH /proxies/shop` changes a proxy while it runs"),
            ("echo '{}' | http :8474/proxies/shop", "`POST /proxies/shop` changes a proxy while it runs"),
            ("curl localhost:8474/populate -d @proxies.json", "the body is in proxies.json, which isn't read"),
            ("http :8474/populate < proxies.json", "the body is in proxies.json, which isn't read"),
            ("http :8474/populate @proxies.json", "`@proxies.json` can't be read"),
            ("curl localhost:8474/proxies -d '{'", "`{` isn't JSON"),
            ("curl localhost:8474/proxies -d '[]'", "`POST /proxies` has another body than an object"),
            ("curl localhost:8474/proxies -d '{\"name\": \"a\"}'", "`POST /proxies` without a name or an upstream"),
            ('curl localhost:8474/proxies -d "{\\"name\\": \\"$NAME\\"}"', "a variable of the shell isn't known here"),
            ("http :8474/proxies/mail/toxics type=latency", f"`POST /proxies/mail/toxics` {UNKNOWN.format('mail')}"),
            ("http :8474/proxies/shop/toxics a=b a[b]=c", "`a[b]` can't be read"),
            ("wget --post-data '{}' localhost:8474/proxies", "a call by wget isn't read"),
        ):
            self.assertEqual(self.convert(f"{CREATE}{call}\n"), (3, [f"line 2: {named}"]), call)
        for reading in (
            "curl localhost:8474/proxies",
            "curl -G -d a=1 localhost:8474/proxies",
            "curl -d a=1 localhost/orders",
            "http :8474/proxies",
            "http GET localhost:8474/proxies q==a",
            "http POST :80/a b=c",
            "until curl -sf localhost:8474/version; do sleep 1; done",
            "wget localhost:8474/proxies",
        ):
            self.assertEqual(self.convert(f"{CREATE}{reading}\n"), (0, []), reading)

    def test_an_open_quote_takes_no_command_away(self):
        for line in ("cat <<EOF\ndon't curl it\nEOF", "# don't curl it", "echo it\\'s curl now"):
            for last in ("echo 'done'", "# it's"):
                status, missing = self.convert(f"{line}\n{CREATE}{last}\n")
                self.assertIn((status, missing), ((0, []), (3, ["line 2: its quotes can't be read"])), line)
                self.assertEqual(self.picked(), [FIRST + "enabled"], line)

    def test_commands_of_a_variable_are_named(self):
        for command, named in (
            ("$CLI create -u localhost:1 mail", "`$CLI create`"),
            ('"${CLI}" -h localhost:8474 create -u localhost:1 mail', '`"${CLI}" create`'),
            ("until $CLI toxic add -t latency shop; do sleep 1; done", "`$CLI toxic`"),
        ):
            said = [f"line 3: {named}: a variable of the shell isn't known here"]
            self.assertEqual(self.convert(f"CLI=$(command -v toxiproxy-cli)\n{CREATE}{command}\n"), (3, said), command)
        self.assertEqual(self.convert(f"{CREATE}echo $CLI\n"), (0, []))

    def test_variables_of_plain_text(self):
        text = "CLI='toxiproxy-cli -h localhost:8474'\nexport HOST=127.0.0.1 \nLISTEN=\"$HOST:26379\"\nMS=7\n"
        text += "$CLI create -l $LISTEN -u ${HOST}:6379 shop\n$CLI toxic add -t latency -a latency=$MS shop\n"
        text += "BODY='{\"type\": \"timeout\", \"stream\": \"upstream\"}'\ncurl -d \"$BODY\" localhost:8474/proxies/shop/toxics\n"
        self.assertEqual(self.convert(text), (0, []))
        self.assertEqual(self.picked()[:2], [FIRST + "enabled", "0 applied latency:latency=7,jitter=0,toxicity=1000 latency_downstream"])
        self.assertEqual(len(self.picked("upstream")), 2)

    def test_variables_that_the_shell_computes(self):
        for line in ("MS=$(date +%s)", "MS=`id -u`", "if true; then MS=7; fi", "MS=7; MS=$1", "read MS", "echo MS=7", "'MS=7'"):
            status, missing = self.convert(f"{CREATE}{line}\ntoxiproxy-cli toxic add -t latency -a latency=$MS shop\n")
            self.assertEqual((status, missing), (3, ["line 3: a variable of the shell isn't known here"]), line)
        self.assertEqual(self.convert(f"MS=7\n{CREATE}toxiproxy-cli toxic add -t latency -a latency='$MS' shop\n")[0], 3)

    def test_loops_over_words(self):
        proxies = "HOSTS='shop mail'\nfor p in $HOSTS; do toxiproxy-cli create -u 127.0.0.1:6379 -l 127.0.0.1:26379 $p; done\n"
        toxics = "for p in shop\ndo\n  for t in timeout slow_close; do\n    toxiproxy-cli toxic add -t $t \"$p\"\n  done\ndone\n"
        self.assertEqual(self.convert(proxies + toxics), (0, []))
        self.assertEqual([line.split()[-1] for line in self.picked()[1:]], ["timeout_downstream", "slow_close_downstream"])
        with open(os.path.join(self.folder, "p.json")) as file:
            self.assertEqual([proxy["name"] for proxy in json.load(file)], ["shop", "mail"])
        self.assertEqual(self.convert(f"{CREATE}for p in *; do toxiproxy-cli toxic add -t timeout $p; done\n")[0], 3)

    def test_several_files(self):
        added = "toxiproxy-cli toxic add -t timeout shop\n"
        self.assertEqual(self.convert(json.dumps([SHOP]), added), (0, []))
        self.assertEqual(len(self.picked()), 2)
        said = f"more, line 1: `toxic add` {UNKNOWN.format('mail')}"
        self.assertEqual(self.convert(json.dumps([SHOP]), added.replace("shop", "mail")), (3, [said]))
        self.assertEqual(self.convert(CREATE, added)[0], 0)
        self.assertEqual(self.convert(CREATE, "[")[0], 1)

    def test_toxics_that_are_changed_before_anything_meets_them(self):
        text = CREATE + "toxiproxy-cli toxic add -t latency -a latency=5 -a jitter=1 -n slow shop\nMS=8\ntoxiproxy-cli list\n"
        text += "toxiproxy-cli toxic update -n slow -a latency=$MS --toxicity 0.5 shop\ncurl -d '{\"attributes\": {\"jitter\": 2}}' :8474/proxies/shop/toxics/slow\n"
        text += "toxiproxy-cli toxic add -t timeout shop\ntoxiproxy-cli toxic remove -n timeout_downstream shop\n"
        text += "toxiproxy-cli toxic add -t timeout -n t shop\nhttp DELETE :8474/proxies/shop/toxics/t\n"
        self.assertEqual(self.convert(text), (0, []))
        self.assertEqual([line.split()[2:] for line in self.picked()[1:]], [["latency:latency=8,jitter=2,toxicity=500", "slow"]])

    def test_toxics_that_are_changed_behind_other_commands(self):
        added = "toxiproxy-cli toxic add -t latency -a latency=5 -n slow shop\n"
        for change, call in (
            ("toxiproxy-cli toxic remove -n slow shop", "toxic remove"),
            ("toxiproxy-cli toxic update -n slow -a latency=9 shop", "toxic update"),
            ("curl -X DELETE :8474/proxies/shop/toxics/slow", "DELETE /proxies/shop/toxics/slow"),
        ):
            for other in ("./run-tests", "sleep 3", "echo now"):
                said = [f"line 4: `{call}` changes a proxy while it runs"]
                self.assertEqual(self.convert(f"{CREATE}{added}{other}\n{change}\n"), (3, said))
                self.assertEqual(self.picked()[1].split()[2], "latency:latency=5,jitter=0,toxicity=1000")
                with open(os.path.join(self.folder, "s.toml")) as file:
                    comment = f"# line 4 has `{call}` of the toxic slow of the proxy shop, behind other commands. It is here as it was before.\n"
                    self.assertEqual(file.readline(), comment)

    def test_what_would_do_nothing_is_told(self):
        said = "proxy shop, toxic 1: `rate` is 0, which limits nothing in Toxiproxy: the toxic is left out"
        self.assertEqual(self.convert_toxic(type="bandwidth", attributes={"rate": 0}), (3, [said]))
        self.assertEqual(len(self.picked()), 1)
        self.assertTrue(self.convert_toxic(toxicity=0.0004)[1][0].endswith("0 are taken, so no connection meets the toxic"))

    def test_no_attribute_is_written_that_nobody_gave(self):
        self.assertEqual(self.convert_toxic(), (0, []))
        with open(os.path.join(self.folder, "s.toml")) as file:
            self.assertNotIn("until", file.read())

    def test_files_of_other_kinds(self):
        for name, kind in (("main_test.go", "a Go file"), ("compose.yaml", "a compose file")):
            said = f"{name}: {kind} isn't read: give a populate file, what `GET /proxies` answers, or a shell script"
            self.assertEqual(self.convert("package main\n", names=(name,)), (1, [said]))

    def test_what_is_no_setup(self):
        for text in ("", "{", "[1]", "{}", "[]", '{"a": 1}', "echo a", "version = 2"):
            self.assertEqual(self.convert(text)[0], 1)
        self.assertEqual(subprocess.run([FROM_TOXIPROXY], stderr=subprocess.DEVNULL, check=False).returncode, 2)
