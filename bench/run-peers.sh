#!/bin/sh
# run-peers.sh: builds the Rust peers outside the repository, runs them, bench_owned and bench_shared in turn, and prints
# one table.
# It installs nothing: it names what is missing and goes on without it. README.md tells the rest.
#
#   BENCH_BUILD    folder for what is built and measured (default: hash-peers in the user's cache folder)
#   ENTRIES        entries of each container (1048576)
#   SEED           seed of the keys (0)
#   RUNS           measured runs of each workload in a process (1)
#   ROUNDS         how often all is gone through (5); several rounds spread a passing load over all peers
#   ONLY_GROUPS    some of: own tail mem curve cache shared tail4 index texts
#   ONLY_PEERS     names of peers, as the first column of a listing has them
#   EXTRA_PEERS    further programs, one path a line, that keep to the conventions of README.md
set -eu
here=$(cd "$(dirname "$0")" && pwd)
build=${BENCH_BUILD:-${XDG_CACHE_HOME:-$HOME/.cache}/hash-peers}
entries=${ENTRIES:-1048576}
seed=${SEED:-0}
runs=${RUNS:-1}
rounds=${ROUNDS:-5}
groups=${ONLY_GROUPS:-own tail mem curve cache shared tail4 index texts}
mkdir -p "$build"

say() { echo "$*" >&2; }

commands=$build/commands
: > "$commands"
for ours in bench_owned bench_shared; do
    program=$here/../crates/$ours/out/$ours
    if [ -x "$program" ]; then
        echo "$program" >> "$commands"
    else
        say "missing: $program (rt run in crates/$ours makes it)"
    fi
done
if ! command -v rustc > /dev/null 2>&1; then
    say "missing: rustc (needed for the Rust peers)"
elif sh "$here/build-rust.sh" "$build" >&2; then
    echo "$build/peers-rust" >> "$commands"
fi
[ -z "${EXTRA_PEERS:-}" ] || echo "$EXTRA_PEERS" | sed '/^ *$/d' >> "$commands"

raw=$build/raw.txt
: > "$raw"
[ ! -x "$build/peers-rust" ] || "$build/peers-rust" clock none >> "$raw"
list=$build/list
: > "$list"
while read -r program; do
    "$program" < /dev/null | while read -r peer of; do echo "$peer $of $program"; done >> "$list"
done < "$commands"

round=1
while [ "$round" -le "$rounds" ]; do
    for group in $groups; do
        # sizes are the same each time
        case $group in mem | curve) [ "$round" = 1 ] || continue ;; esac
        while read -r peer of program; do
            case ",$of," in *",$group,"*) ;; *) continue ;; esac
            case " ${ONLY_PEERS:-$peer} " in *" $peer "*) ;; *) continue ;; esac
            say "round $round: $group $peer"
            "$program" "$peer" "$group" "$runs" "$entries" "$seed" < /dev/null >> "$raw" || say "$peer failed in $group"
        done < "$list"
    done
    round=$((round + 1))
done

sed -n 's/^# //p' "$raw"
echo
"$here/tables" --all "$raw"
