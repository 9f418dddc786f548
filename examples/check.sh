#!/usr/bin/env bash
# Runs a built program over the weekend of this folder and over two races by corrected time, and
# compares what it prints. The weekend is also served and kept in a file, and goes on from it.
# tests/all.sh calls this; the evening is played by tests/test_evening.py.
#   examples/check.sh PROGRAM
set -euo pipefail
program=$(realpath "$1")
cd "$(dirname "$(realpath "$0")")"
for form in table csv journal; do
    "$program" replay --entries boats.csv --print "$form" < weekend.txt \
        | diff - <(cat weekend.replies "weekend.$form")
done
echo "the weekend is as it was"
"$program" replay --handicap --entries boats.csv < handicap.txt \
    | diff - <(cat handicap.replies handicap.table)
echo "the races by corrected time are as they were"
folder=$(mktemp -d)
trap 'rm -rf "$folder"' EXIT
for turn in first second; do
    "$program" serve --keep "$folder/kept" --socket "$folder/socket" --sessions 1 --entries boats.csv \
        > "$folder/table" &
    python3 - "$folder/socket" $turn weekend.txt << 'END'
import socket, sys, time
path, turn, lines = sys.argv[1:]
client = socket.socket(socket.AF_UNIX)
for _ in range(3000):
    try:
        client.connect(path)
        break
    except OSError:
        time.sleep(0.01)
with open(lines, "rb") as file:
    client.sendall(file.read() if turn == "first" else b"QUIT\n")
client.shutdown(socket.SHUT_WR)
while client.recv(65536):
    pass
END
    wait $!
    rm "$folder/socket"
    diff "$folder/table" weekend.table
    diff "$folder/kept" weekend.journal
done
echo "the weekend is kept, and goes on"
