#!/usr/bin/env bash
# The rules of docs/RULES.md by the program: each text that is said to break a rule breaks it first, and each mended one is well typed.
top=$(cd "$(dirname "$0")/.." && pwd)
"$top/ivoryc" --prove 2>/dev/null || exit 1
program=$top/crates/ivoryc/out/ivoryc
work=$(mktemp -d)
trap 'rm -rf "$work"' EXIT
failed=0

# says TEXT: the status of `check`, and what it writes
says() {
  printf 'module m;\n%s\n' "$1" >"$work/a.iv"
  "$program" check "$work/a.iv" >"$work/out" 2>"$work/err"
  echo "$? $(cat "$work/out" "$work/err")"
}

rows=0
while IFS=$'\t' read -r rule broken mended; do
  rows=$((rows + 1))
  [ "$rule" = "$rows" ] || { echo "rules: no row of rule $rows"; failed=1; }
  case $(says "$broken") in
    "1 "*": rule $rule") ;;
    *) echo "rules: wanted rule $rule, got '$(says "$broken")' of: $broken"; failed=1 ;;
  esac
  [ "$(says "$mended")" = '0 ok' ] || { echo "rules: '$(says "$mended")' of the mended: $mended"; failed=1; }
done < <(sed -nE 's/^\| ([0-9]+) \| .* \| `(.*)` \| `(.*)` \|$/\1\t\2\t\3/p' "$top/docs/RULES.md")
[ "$rows" = 44 ] || { echo "rules: $rows rows"; failed=1; }

[ $failed = 0 ] && echo "rules: ok"
exit $failed
