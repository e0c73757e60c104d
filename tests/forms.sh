#!/usr/bin/env bash
# Each form of the language by the program, alone and all in one module: read as a module, whether or not it keeps the rules, or compiled.
top=$(cd "$(dirname "$0")/.." && pwd)
"$top/ivoryc" --prove 2>/dev/null || exit 1
work=$(mktemp -d)
trap 'rm -rf "$work"' EXIT
failed=0

program=$top/crates/ivoryc/out/ivoryc

# expect STATUS: what `emit` answers of the text in $work/a.iv
expect() {
  "$program" emit "$work/a.iv" >/dev/null 2>"$work/err"
  local status=$?
  [ "$status" = "$1" ] || { echo "forms: wanted $1, got $status '$(cat "$work/err")' of: $(head -c 200 "$work/a.iv")"; failed=1; }
}

# what `emit` reads of the text in $work/a.iv is a module: it breaks a rule, or is not built yet
expect_module() {
  "$program" emit "$work/a.iv" >/dev/null 2>"$work/err"
  case $?:$(cat "$work/err") in
    '8:not built yet' | 1:*': rule '*) ;;
    *) echo "forms: '$(cat "$work/err")' of: $(head -c 200 "$work/a.iv")"; failed=1 ;;
  esac
}

text() { printf '%b' "$1" >"$work/a.iv"; }

items="" statements="" rows=0
while read -r kind form; do
  case $kind in
    item) items="$items $form"; text "module m; $form"; expect_module ;;
    statement) statements="$statements $form"; text "module m; proc f() { $form }"; expect_module ;;
    expression) statements="$statements let x = $form;"; text "module m; proc f() { let x = $form; }"; expect_module ;;
    compiled) text "$form"; expect 0 ;;
    later) text "$form"; expect_module ;;
    *) continue ;;
  esac
  rows=$((rows + 1))
done <"$top/tests/forms.txt"
text "module m; $items proc all() { $statements }"; expect_module
text 'module m;\nimport led(on : uint8_t);\nexport proc go() {\n  led(1);\n  led(0);\n}\n'
"$program" emit "$work/a.iv" >"$work/out" 2>&1
cat >"$work/wanted" <<'C'
#include <stdint.h>
#include <stdbool.h>
extern void ivory_stop(uint32_t);
extern void iv_led(uint8_t);
void iv_go(void) {
  iv_led(1);
  iv_led(0);
}
C
cmp -s "$work/out" "$work/wanted" || { echo "forms: other C text"; failed=1; }
[ "$rows" = 83 ] || { echo "forms: $rows rows"; failed=1; }

[ $failed = 0 ] && echo "forms: ok"
exit $failed
