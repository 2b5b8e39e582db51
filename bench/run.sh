#!/usr/bin/env bash
# Every timing: scripts replayed, menus and texts read and written, beside a plain C program that splits
# them, settings and a site of 4,006 files checked, requests and searches of the server, beside a plain C
# server of the same replies, the start of a server beside `find` and `cat`, a catalogue of 65,536 pages built and
# searched, beside a plain C program that makes the same pages, adds them to postings and searches these, one of 300 pages,
# beside that program and a plain C loop over the pages, the memory of 30,000 real texts of the machine, and a host in memory
# of 16,384 texts crawled by 4, 2 and 1 workers, beside threads of C that index the same texts. Then other Gopher servers, if they are
# installed, and the tables of docs/TIMINGS.md. `bench/run.sh OUTPUT` keeps what it printed, for
# `bench/table.py --write OUTPUT`.
set -euo pipefail
output=$(realpath -m "${1:-/dev/null}")
cd "$(dirname "$0")/.."
folder=$(mktemp -d)
trap 'rm -rf "$folder"' EXIT

# what a test of timings prints, without the words of the one that runs it
time_calls() {
    "$calls" "timings::$1" "$2" | sed '/^$/,$d'
}

measure() {
    bench/replay.sh crates/hole/out/hole
    bench/files.py "$folder"
    cc -O2 -o "$folder/splits" bench/splits.c
    for file in menu reply text small_menu small_text; do
        kind=${file/reply/menu}
        kind=${kind/small_/}
        echo "the file $file:"
        time_calls "${kind}s" "$folder/$file"
        "$folder/splits" "$kind" "$folder/$file"
    done
    printf 'host = "localhost"\nroot = "%s"\n' "$folder/site" > "$folder/site.toml"
    bench/check.sh crates/hole/out/hole examples/hole.toml "$folder/site.toml"
    cc -O2 -pthread -o "$folder/plain_server" bench/plain_server.c
    cc -O2 -pthread -o "$folder/clients" bench/clients.c
    bench/speeds.py crates/hole/out/hole "$folder/plain_server" "$folder/clients"
    bench/start.py crates/hole/out/hole
    bench/pages.py "$folder/pages"
    time_calls searches "$folder/pages"
    cc -O2 -o "$folder/postings" bench/postings.c
    echo "the plain C program:"
    "$folder/postings" "$folder/pages"
    bench/pages.py "$folder/few" 300
    echo "a catalogue of 300 pages:"
    time_calls searches "$folder/few"
    cc -O2 -o "$folder/loop" bench/loop.c
    echo "a plain C loop over them:"
    "$folder/loop" "$folder/few"
    echo "the plain C program over them:"
    "$folder/postings" "$folder/few"
    bench/texts.py "$folder/texts"
    time_calls searches "$folder/texts" | sed -n '1s/^/real texts: /p'
    bench/pages.py "$folder/crawled" 16384
    time_calls crawls "$folder/crawled"
    cc -O2 -pthread -o "$folder/crew" bench/crew.c
    for workers in 4 2 1; do
        "$folder/crew" "$folder/crawled" "$workers"
    done
    echo "the same pages made and added by 4 programs at once, without a crew:"
    for _ in 1 2 3 4; do
        time_calls searches "$folder/crawled" > "$folder/alone" &
    done
    wait
    head -n 1 "$folder/alone"
    bench/peers.py crates/hole/out/hole "$folder/plain_server" "$folder/clients"
}

(cd crates/hole && rt run -- replay < stdin > /dev/null)
calls=$(bench/build_timings.sh "$folder")
measure | tee "$folder/output"
cp "$folder/output" "$output"
echo
bench/table.py "$folder/output"
