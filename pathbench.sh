#!/bin/sh
# Runs the server program with the words that it is given. Only a proved program is built, so where it is not built
# yet it is proved first: what that prints goes to standard error, and where it fails the status is 2.
root=$(cd "$(dirname "$0")" && pwd -P)
program=$root/crates/pathbench/out/pathbench
[ -x "$program" ] || (cd "$root/crates/pathbench" && rt run -- demo) >&2 || exit 2
# No proof says how much stack is enough. It gets 64 MiB where the system allows that, and else what it has.
ulimit -s 65536 2>/dev/null
exec "$program" "$@"
