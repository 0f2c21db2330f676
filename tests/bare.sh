# Run by bare in its root: README's first fault, once. Its last line says how long that took.
cd /clone
. tests/readme.sh
! command -v rt || exit 1
other_ports
shown 'python3 -m http.server' >/tmp/serve
output 'python3 -m http.server' >/tmp/lines
begun="$(date +%s%3N)"
sh /tmp/serve >/tmp/printed 2>/tmp/said
took="$(($(date +%s%3N) - begun))"
while read -r line; do
    for _ in $(seq 100); do
        ! grep -qxE "$line" /tmp/printed || continue 2
        sleep 0.1
    done
    echo "bare: no line $line"
    cat /tmp/printed /tmp/said
    exit 1
done </tmp/lines
awk '/^answered in/ { late = $3 >= 0.3 && $3 < 10 } END { exit !late }' /tmp/printed
if grep '^toxi: ' /tmp/said; then
    echo "bare: ./toxi says something on standard error"
    exit 1
fi
echo "bare: a served fault after $took ms"
