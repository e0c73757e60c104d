#!/usr/bin/env bash
# The deepest texts are read, and their rules are asked, within the stack that docs/COMMANDS.md names.
top=$(cd "$(dirname "$0")/.." && pwd)
"$top/ivoryc" --prove 2>/dev/null || exit 1
program=$top/crates/ivoryc/out/ivoryc
work=$(mktemp -d)
trap 'rm -rf "$work"' EXIT
failed=0

# within KILOBYTES COMMAND WANTED: what the command tells of the text in $work/a.iv
within() {
  local told
  told=$( (ulimit -s "$1" && exec env -i "$program" "$2" "$work/a.iv") 2>&1)
  case $told in
    *"$3"*) ;;
    *) echo "stack: '$told' within $1 KB: $(head -c 80 "$work/a.iv")"; failed=1 ;;
  esac
}

many() { printf "%${1}s" '' | sed "s/ /$2/g"; }

# deep KILOBYTES TEXT: a text is read as far as a token too many behind it, and then without that token its rules are asked
deep() {
  echo "$2 }" >"$work/a.iv"
  within "$1" emit 'unexpected token'
  echo "$2" >"$work/a.iv"
  within 4096 check rule
}

deep 192 "module m; export proc f() -> bool { let x = $(many 31 '(')y$(many 31 ')'); }"
deep 192 "module m; export proc f() { let x = $(many 31 'set(')a$(many 31 ', b, c)'); }"
every='a || a \&\& a | a ^ a \& a == a < a << a + a * ('
deep 384 "module m; export proc f() { let x = $(many 31 "$every")a$(many 31 ')'); }"

[ $failed = 0 ] && echo "stack: ok"
exit $failed
