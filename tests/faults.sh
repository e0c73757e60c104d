#!/usr/bin/env bash
# Texts that are no module, by the program: the status and the line of each, the limits of length and nesting, and a driver that is cut
# after each byte.
top=$(cd "$(dirname "$0")/.." && pwd)
"$top/ivoryc" --prove 2>/dev/null || exit 1
work=$(mktemp -d)
trap 'rm -rf "$work"' EXIT
failed=0

# expect STATUS LINE: what `emit` says of the text in $work/a.iv
expect() {
  "$program" emit "$work/a.iv" >"$work/out" 2>"$work/err"
  local status=$?
  if [ "$status" != "$1" ] || [ "$(cat "$work/err")" != "$2" ]; then
    echo "faults: wanted $1 '$2', got $status '$(cat "$work/err")' of: $(head -c 100 "$work/a.iv")"
    failed=1
  fi
  if [ "$1" != 0 ] && [ -s "$work/out" ]; then
    echo "faults: something was written of: $(head -c 100 "$work/a.iv")"
    failed=1
  fi
}

program=$top/crates/ivoryc/out/ivoryc

text() { printf '%b' "$1" >"$work/a.iv"; }

text ''; expect 1 '1:1: unexpected token'
text 'module m;\nexport proc main() {'; expect 1 '2:21: unexpected token'
text 'module m; proc f() { let x = 1 }'; expect 1 '1:32: unexpected token'
text 'module m; proc f() { let x = a + ); }'; expect 1 '1:34: unexpected token'
text 'module m; proc f() { let x = a ? b; }'; expect 1 '1:35: unexpected token'
text 'module m; proc f() { let x = !*p.f[i] - -; }'; expect 1 '1:42: unexpected token'
text 'module m; @'; expect 1 '1:11: bad byte'
text '/* x'; expect 1 '1:1: open comment'
text 'module m; area a : uint8_t = 18446744073709551616;'; expect 1 '1:30: big literal'
text 'module abcdefghijklmnopqrstuvwxyzabc;'; expect 1 '1:8: long name'
text 'module m; export area'; expect 1 '1:18: unexpected token'
text '-- module'; expect 1 '1:10: unexpected token'
text 'module m'; expect 1 '1:9: unexpected token'
text 'module m; proc f() { let x = a+; }'; expect 1 '1:32: unexpected token'
text 'module m; bitdata B : bool { a : 1 }'; expect 1 '1:23: unexpected token'
text 'module m;\n\n \xc3\xa4'; expect 1 '3:2: bad byte'
text 'module m; /* * / /*'; expect 1 '1:11: open comment'
text 'module m; area a : uint8_t = 0x10000000000000000;'; expect 1 '1:30: big literal'
text 'module m; abcdefghijklmnopqrstuvwxyzabc @'; expect 1 '1:11: long name'
text 'module abcdefghijklmnopqrstuvwxyzab;'; expect 0 ''
text 'module m; -- empty'; expect 0 ''
text 'module\tm /* a\r\n */ ;\nimport p(x : uint8_t);\nexport proc q() { p(0xFf); p(007); }'; expect 0 ''
text 'module m;\nimport led(on : uint8_t);\nexport proc go() {\n  led(256);\n}\n'; expect 1 '4:7-4:10: rule 19'
text 'module m;'; printf '%*s' $((262144 - 9)) '' >>"$work/a.iv"; expect 0 ''
text 'module m;'; printf '%*s' $((262145 - 9)) '' >>"$work/a.iv"; expect 6 'too large'

opens() { printf '%*s' "$1" '' | tr ' ' '('; }
closes() { printf '%*s' "$1" '' | tr ' ' ')'; }
text "module m;\nexport proc f() -> bool { return $(opens 31)true$(closes 31); }"; expect 8 'not built yet'
text "module m;\nexport proc f() -> bool { return $(opens 32)true$(closes 32); }"; expect 1 '2:65: too deep'

# an output that takes nothing
text 'module m;\nexport proc main() {}'
"$program" emit "$work/a.iv" >/dev/full 2>"$work/err"
{ [ $? = 4 ] && [ ! -s "$work/err" ]; } || { echo "faults: an output that takes nothing"; failed=1; }

"$program" run a b 100000001 >"$work/out" 2>"$work/err"
[ $? = 2 ] || { echo "faults: a word that is no command"; failed=1; }

# A cut is a module where the first line or an item ends, and one byte later: the line end.
driver=$top/tests/driver.iv
[ "$(wc -c <"$driver")" -gt 900 ] || { echo "faults: no driver"; failed=1; }
size=$(wc -c <"$driver")
modules=""
for ((length = 0; length <= size; length++)); do
  head -c "$length" "$driver" >"$work/a.iv"
  "$program" emit "$work/a.iv" >/dev/null 2>&1
  case $? in
    0 | 8) modules="$modules $length" ;;
    1) ;;
    *) echo "faults: another status for the first $length bytes of the driver"; failed=1 ;;
  esac
done
ends=""
at=0
while IFS= read -r line; do
  at=$((at + ${#line} + 1))
  case $line in
    'module '* | 'bitdata '* | 'struct '* | 'area '* | 'import '* | 'proc blink'* | '}') ends="$ends $((at - 1)) $at" ;;
  esac
done <"$driver"
if [ "$modules" != "$ends" ] || [ "$(echo "$modules" | wc -w)" != 28 ]; then
  echo "faults: the driver is a module at$modules, wanted$ends"
  failed=1
fi

[ $failed = 0 ] && echo "faults: ok"
exit $failed
