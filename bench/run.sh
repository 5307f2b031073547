#!/usr/bin/env bash
# Measures Hammerbuff against what does the same without it, on this machine, and prints the ratios:
#   a  commands a second matched in memory: the book (crates/bench_book) against the same algorithm in plain Rust (book.rs, rustc -O)
#   b  pages of 16 commands a second, each on the disk before the next: an exchange on a file (bench_book) against a loop of pwrite and
#      fdatasync at the same places of a file of the same size (file.c), and against SQLite (sqlite.c), a page a transaction; and the
#      same through `hammerbuff run`, which reads the commands as lines and prints what comes of them
#   c  pages a second replayed at an opening, in the book: `hammerbuff run` with nothing to read, on an image of 4,096 sectors whose
#      journal holds 4,080 pages, against reading the sectors of the image alone (file.c)
#   d  the same in a call auction, where each page but the first three has a full auction cleared (auctions.py)
#
#   bench/run.sh [FOLDER]
#
# It writes to FOLDER (bench/out if left out), which should lie on the disk that is to be measured. It runs by hand, for some minutes,
# on a machine that does nothing else. It needs the Rattle kit, rustc, a C compiler, libsqlite3 with its header, and python3. Each thing
# is done six times, in turns with what it is compared to; the first does not count, and the best of the others is taken. The times of
# Hammerbuff are those of the whole program, from its start to its end (in a and b without what a run takes that has nothing to do); the
# C programs time their loop alone. So what is printed is rather too little than too much. In b Hammerbuff takes a snapshot at the end, in
# c and d, too.
#
# HAMMERBUFF and BENCH_BOOK may name programs that are built already (by rt run); COMMANDS, PAGES and ROUNDS other sizes than below.
set -euo pipefail
export LC_ALL=C

here=$(cd "$(dirname "$0")" && pwd)
crates=$here/../crates
work=${1:-$here/out}
rounds=${ROUNDS:-5}
commands=${COMMANDS:-5000000} # of a
few=$((commands / 50))
pages=${PAGES:-2000} # of b
replayed=4080        # of c and d
sectors=4096
house=7

say() { echo "bench: $*" >&2; }

stop() {
    say "$*"
    exit 1
}

# Builds a program as rt run does, which proves it first, and prints where it lies.
built() {
    (cd "$crates/$1" && rt run -- "${@:2}") >"$work/build.log" 2>&1 || stop "$1 is not built: see $work/build.log"
    echo "$crates/$1/out/$1"
}

build_all() {
    bench_book=${BENCH_BOOK:-$(built bench_book)}
    hammerbuff=${HAMMERBUFF:-$(built hammerbuff --help)}
    rustc -O --edition 2021 -o "$work/book" "$here/book.rs"
    cc -O2 -o "$work/file" "$here/file.c"
    cc -O2 -o "$work/sqlite" "$here/sqlite.c" -lsqlite3
}

# Runs a command, and leaves in `took` how many seconds it took from start to end.
clock() {
    local from=$EPOCHREALTIME
    "$@"
    local to=$EPOCHREALTIME
    took=$(awk "BEGIN { printf \"%.6f\", $to - $from }")
}

# Notes the seconds of a round for a thing that is measured. Round 0 is there to warm up.
note() {
    if (($3 > 0)); then echo "$2" >>"$work/$1.times"; fi
}

best() { sort -g "$work/$1.times" | head -n 1; }

# A row: what, our name, our seconds, how many things, the other's name, its seconds, how many things.
row() {
    awk -v what="$1" -v us="$2" -v ours="$3" -v n="$4" -v them="$5" -v theirs="$6" -v m="$7" 'BEGIN {
        a = n / ours; b = m / theirs
        printf "%-38s | %-14s %11.0f | %-22s %11.0f | %6.3f\n", what, us, a, them, b, a / b
    }' >>"$work/table"
}

run_house() { "$hammerbuff" run "$1" --house $house --market "$2" --format csv; }

set_up() { "$hammerbuff" setup "$1" --house $house --market "$2" --sectors $sectors --force >/dev/null; }

# A copy of an image that is on the disk before it is used.
copy() {
    cp --sparse=never "$1" "$2"
    sync "$2"
}

# --- a: matching in memory

match_round() {
    clock "$bench_book" $commands >"$work/ours.many"
    note ours.many "$took" "$1"
    clock "$work/book" $commands >"$work/plain.many"
    note plain.many "$took" "$1"
    clock "$bench_book" $few >/dev/null
    note ours.few "$took" "$1"
    clock "$work/book" $few >/dev/null
    note plain.few "$took" "$1"
    cmp -s "$work/ours.many" "$work/plain.many" || stop "the book and plain Rust came to different ends"
}

measure_matching() {
    say "a: matching $commands commands in memory"
    for round in $(seq 0 "$rounds"); do match_round "$round"; done
    local ours plain
    ours=$(awk "BEGIN { print $(best ours.many) - $(best ours.few) }")
    plain=$(awk "BEGIN { print $(best plain.many) - $(best plain.few) }")
    row "a matching, commands a second" book "$ours" $((commands - few)) "plain Rust" "$plain" $((commands - few))
}

# --- b: pages that are on the disk

# bench_book cancels what rested when a page began, the day below what rests when the cancel comes: so their ends differ a little.

# The day of b is worked once with its records kept, to see that it comes to the end that plain Rust comes to.
check_day() {
    local notices
    notices=$("$work/book" $((16 * pages)) | sed 's/.* commands, \([0-9]*\) notices.*/\1/')
    copy "$work/new.book" "$work/day.image"
    run_house "$work/day.image" book <"$work/day" >"$work/day.records"
    grep -qx "done,$pages,$((16 * pages)),$notices" "$work/day.records" || stop "the day did not end as plain Rust ends it"
}

disk_round() {
    copy "$work/new.book" "$work/day.image"
    clock "$bench_book" "$work/day.image" "$pages" >"$work/engine.end"
    note engine.disk "$took" "$1"
    grep -q "^$pages pages, $((16 * pages)) commands, " "$work/engine.end" || stop "the exchange on a file did not take all pages"
    copy "$work/new.book" "$work/day.image"
    clock "$bench_book" "$work/day.image" 0 >/dev/null
    note engine.idle "$took" "$1"
    copy "$work/new.book" "$work/day.image"
    clock run_house "$work/day.image" book <"$work/day" >/dev/null
    note ours.disk "$took" "$1"
    copy "$work/new.book" "$work/day.image"
    clock run_house "$work/day.image" book </dev/null >/dev/null
    note ours.idle "$took" "$1"
    copy "$work/new.book" "$work/loop.image"
    took=$("$work/file" sync "$work/loop.image" "$pages")
    note loop.disk "$took" "$1"
    rm -f "$work"/day.db*
    took=$("$work/sqlite" "$work/day.db" <"$work/day")
    note sqlite.disk "$took" "$1"
}

measure_disk() {
    say "b: $pages pages, each on the disk before the next"
    "$work/book" $((16 * pages)) --print >"$work/day"
    set_up "$work/new.book" book
    check_day
    for round in $(seq 0 "$rounds"); do disk_round "$round"; done
    local engine ours
    engine=$(awk "BEGIN { print $(best engine.disk) - $(best engine.idle) }")
    ours=$(awk "BEGIN { print $(best ours.disk) - $(best ours.idle) }")
    row "b pages on the disk, a second" exchange "$engine" "$pages" "pwrite and fdatasync" "$(best loop.disk)" "$pages"
    row "b pages on the disk, a second" exchange "$engine" "$pages" "SQLite, WAL, FULL" "$(best sqlite.disk)" "$pages"
    row "b the same with lines read and printed" run "$ours" "$pages" "pwrite and fdatasync" "$(best loop.disk)" "$pages"
}

# --- c and d: replay

# Makes an image whose journal holds pages that no snapshot covers: a copy, while a run waits for more. Market, commands, image.
fill_journal() {
    set_up "$work/live.image" "$1"
    rm -f "$work/line" "$work/live.records"
    mkfifo "$work/line"
    run_house "$work/live.image" "$1" <"$work/line" >"$work/live.records" &
    exec 3>"$work/line"
    cat "$2" >&3
    until grep -qs "^receipt,$house,$replayed," "$work/live.records"; do
        kill -0 $! 2>/dev/null || stop "the run that fills the journal ended early"
        sleep 0.1
    done
    copy "$work/live.image" "$3"
    exec 3>&-
    wait $!
}

# An opening of the image is to tell the same pages and notices as the run that filled it.
check_replay() {
    copy "$2" "$work/replay.image"
    run_house "$work/replay.image" "$1" </dev/null >"$work/replay.records"
    grep -q "^live,$replayed," "$work/replay.records" || stop "the replay did not come to page $replayed"
    cmp -s <(grep -E '^(receipt|fill|dropped|cancelled),' "$work/live.records") \
        <(grep -E '^(receipt|fill|dropped|cancelled),' "$work/replay.records") || stop "the replay told other things than the run"
}

replay_round() {
    copy "$work/full.$1" "$work/replay.image"
    clock run_house "$work/replay.image" "$1" </dev/null >/dev/null
    note "ours.$1" "$took" "$2"
    took=$("$work/file" read "$work/full.$1")
    note "read.$1" "$took" "$2"
}

# Letter, market, file of commands.
measure_replay() {
    say "$1: replay of $replayed pages, market $2"
    fill_journal "$2" "$3" "$work/full.$2"
    check_replay "$2" "$work/full.$2"
    for round in $(seq 0 "$rounds"); do replay_round "$2" "$round"; done
    row "$1 replay of the $2, pages a second" run "$(best "ours.$2")" $replayed "reading the image" "$(best "read.$2")" $sectors
}

# --- the machine, and all of it

machine() {
    echo "machine: $(sed -n 's/^model name[[:space:]]*: //p' /proc/cpuinfo | head -n 1), $(nproc) cores, $(uname -sr)"
    echo "folder: $(df --output=fstype,source "$work" | tail -n 1 | xargs | sed 's/ / on /'); load before: $(cut -d ' ' -f 1-3 /proc/loadavg)"
    echo "tools: $(rustc --version | cut -d ' ' -f 1-2), $(cc --version | head -n 1), SQLite $("$work/sqlite" --version)"
}

mkdir -p "$work"
rm -f "$work"/*.times "$work/table"
build_all
machine >"$work/machine"
measure_matching
measure_disk
"$work/book" $((16 * replayed)) --print >"$work/orders"
measure_replay c book "$work/orders"
python3 "$here/auctions.py" $replayed >"$work/auctions"
measure_replay d call "$work/auctions"
cat "$work/machine"
printf '%-38s | %-26s | %-34s | %6s\n' "" "Hammerbuff" "the other" "ratio"
cat "$work/table"
