#!/usr/bin/env bash
# Each file of examples/ gives C text that a C compiler takes without a warning. Skipped where there is no C compiler.
top=$(cd "$(dirname "$0")/.." && pwd)
"$top/ivoryc" --prove 2>/dev/null || exit 1
command -v gcc >/dev/null || { echo "c_compiles: skipped, no gcc"; exit 0; }
work=$(mktemp -d)
trap 'rm -rf "$work"' EXIT
status=0
for module in "$top"/examples/*.iv; do
  name=$(basename "$module" .iv)
  if "$top/ivoryc" emit "$module" >"$work/$name.c" && gcc -std=c99 -Wall -Wextra -pedantic -Werror -c "$work/$name.c" -o "$work/$name.o"; then
    echo "c_compiles: $name: ok"
  else
    echo "c_compiles: $name: FAILED"
    status=1
  fi
done
exit $status
