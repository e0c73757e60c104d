#!/usr/bin/env bash
# The C text of the example, linked with a host and run, does what the module does. Skipped where there is no C compiler.
top=$(cd "$(dirname "$0")/.." && pwd)
"$top/ivoryc" --prove 2>/dev/null || exit 1
command -v gcc >/dev/null || { echo "host_runs: skipped, no gcc"; exit 0; }
work=$(mktemp -d)
trap 'rm -rf "$work"' EXIT
blinked=$'led 1\ntick\nled 0\ntick'
wanted=$'color 255 128 0\nled 0\n'"$blinked"$'\n'"$blinked"
"$top/ivoryc" emit "$top/examples/blink.iv" >"$work/blink.c" &&
  gcc -std=c99 -Wall -Wextra -pedantic -Werror "$work/blink.c" "$top/examples/host.c" -o "$work/blink" &&
  [ "$("$work/blink")" = "$wanted" ] && echo "host_runs: ok" && exit 0
echo "host_runs: FAILED"
exit 1
