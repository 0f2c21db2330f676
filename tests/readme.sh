# Sourced by fresh and bare, in a clone: README's first fault.

# shown WORDS: the first command of README that begins so, all its lines.
shown() {
    awk -v words="    $1" 'index($0, words) == 1 { found = 1 } found && !/^    / { exit } found { print substr($0, 5) }' README.md
}

# output WORDS: what README shows of it, each number as a pattern.
output() {
    awk -v words="    $1" 'index($0, words) == 1 { found = 1 } /^```$/ && found && ++fences == 2 { exit } fences == 1 && !/^```$/' README.md |
        sed -E 's/[][*^$/`.]/./g; s/[0-9]+/[0-9]+/g'
}

# other_ports: puts ports that are free in place of those that README names.
other_ports() {
    set -- $(python3 -c 'import socket
sockets = [socket.create_server(("127.0.0.1", 0)) for _ in "abc"]
print(*(each.getsockname()[1] for each in sockets))')
    sed -i "s/18080/$1/g; s/18081/$3/g; s/\b8080/$2/g" README.md
}
