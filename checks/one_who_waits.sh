#!/usr/bin/env bash
# Shows that one who sends a request and waits gets its whole answer, with no byte sent behind it and the input open.
set -u
export LC_ALL=C
cd "$(dirname "${BASH_SOURCE[0]}")/.." || exit 1

work=$(mktemp -d) || exit 1
trap 'rm -rf "$work"' EXIT
trap '' PIPE

./weed --version > "$work/version" || exit 1
coproc filer { exec timeout 120 ./weed filer.once "-dir=$work/data"; }
pid=$filer_PID
trap 'kill "$pid" 2> /dev/null; rm -rf "$work"' EXIT
exec {to}>&"${filer[1]}" {from}<&"${filer[0]}"
eval "exec ${filer[1]}>&- ${filer[0]}<&-"

# Sends the text, and waits for the answer.
ask() {
    printf '%s' "$1" >&"$to" || { echo "one_who_waits: it reads no more"; exit 1; }
    answer=
    while [ "${#answer}" -lt "${#2}" ]; do
        IFS= read -r -d '' -N 1 -t 20 byte <&"$from" || { echo "one_who_waits: no more came behind: $answer"; exit 1; }
        answer+=$byte
    done
    [ "$answer" = "$2" ] || { echo "one_who_waits: another answer came: $answer"; exit 1; }
}

json=$'Content-Type: application/json\r\n'
for name in a b c; do
    ask "POST /$name/ HTTP/1.1"$'\r\nHost: x\r\n\r\n' $'HTTP/1.1 201 Created\r\n'"$json"$'Content-Length: 12\r\n\r\n'"{\"name\":\"$name\"}"
done
ask $'GET / HTTP/1.1\r\n\r\n' $'HTTP/1.1 501 Not Implemented\r\n'"$json"$'Content-Length: 18\r\nConnection: close\r\n\r\n{"error":"NotYet"}'

wait "$pid"
status=$?
[ "$status" -eq 0 ] || { echo "one_who_waits: status $status"; exit 1; }
