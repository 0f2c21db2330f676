"""The sections of the man page that the table of arguments doesn't have."""

DESCRIPTION = """\
toxi stands between a client and a server, and adds faults to their connections: delays, limited bandwidth, small pieces, late closings, lost data,
resets and closings in midstream. A script says which numbered connection meets which of them, and what is drawn at random follows from a seed. So each
fault can be known beforehand, and had again.

`toxi serve` is the proxy. `toxi pick`, `toxi forecast` and `toxi check` tell what its connections will meet. `toxi replay`, `toxi report` and `toxi draw` show
what happened, by its logs. `toxi dry`, `toxi draw`, `toxi plan` and `toxi stages` try faults without a socket."""

STATUS = [
    ("0", "Done; help and the version too."),
    ("1", "A fault, as one line on standard error, which begins with its code."),
    ("2", "The command line is refused."),
]

ENVIRONMENT = [
    ("TOXI", "The path of the program that the packages for Python, Go, JavaScript, Java and Rust, toxi-find and toxi-sweep, and examples/with-toxi run."),
    ("TOXI_EXPLAIN", "1: lines below a fault explain it, as with --explain. 0: they don't on a terminal and in the journal either."),
    ("TOXI_CONFIG, TOXI_SCRIPT, TOXI_SEED, TOXI_WORKERS", "Options of serve, where they aren't typed. Each one that is used is told."),
    ("TOXI_NAME", "Set by these commands for what they run: the address of the proxy NAME, in upper case and with _ for other signs than letters and digits."),
]

FILES = [
    ("FILE of --config", "The populate file: the proxies, in JSON."),
    ("FILE of --script", "The script: the toxics of connections, in TOML."),
    ("DIR/PROXY-LINK-STREAM.log", "What `toxi serve --log DIR` writes of each stream of each link."),
    ("share/doc/toxi", "The manual, examples, the Python package and the licences, below the folder where toxi is installed. docs/PROFILE.md is its first page."),
    ("lib/toxi/uninstall", "Takes away what was installed, below the same folder."),
]

SEE_ALSO = ["haproxy(1)", "nc(1)", "socat(1)", "tc(8)", "tc-netem(8)"]

COPYRIGHT = "The Toxi authors, under the MIT licence."
