#!/usr/bin/env bash
# Runs of C texts by the program: reports, the reasons of an undefined run, faults of the text and of the script, and in which order they count.
top=$(cd "$(dirname "$0")/.." && pwd)
"$top/ivoryc" --prove 2>/dev/null || exit 1
program=$top/crates/ivoryc/out/ivoryc
work=$(mktemp -d)
trap 'rm -rf "$work"' EXIT
cd "$work" || exit 1
failed=0

# expect STATUS OUT ERR WORDS: what the program says of the words; OUT and ERR without their last line end
expect() {
  local wanted=$1 out=$2 err=$3
  shift 3
  "$program" "$@" >out 2>err
  local status=$?
  if [ "$status" != "$wanted" ] || [ "$(cat out)" != "$out" ] || [ "$(cat err)" != "$err" ]; then
    echo "crun: wanted $wanted '$out' '$err', got $status '$(cat out)' '$(cat err)' of: $*"
    failed=1
  fi
}

# c LINES: the C text with these lines behind the three that begin each
c() { printf '#include <stdint.h>\n#include <stdbool.h>\nextern void ivory_stop(uint32_t);\n%b' "$1" >a.c; }
script() { printf '%b' "$1" >a.script; }

# a pointer to an object of a call that has ended, a value that was never written, and a blank too many
callee='static uint8_t *iv_f(void) {\n  uint8_t x = 1;\n  return (&x);\n}\n'
script 'call g\n'
c "${callee}uint8_t iv_g(void) {\n  uint8_t *const p = iv_f();\n  return (*p);\n}\n"
expect 0 'undefined dead' '' crun a.c a.script 10000
c "${callee}uint8_t iv_g(void) {\n  uint8_t x;\n  return x;\n}\n"
expect 0 'undefined indeterminate' '' crun a.c a.script 10000
c "${callee/static /static  }uint8_t iv_g(void) {\n  uint8_t x;\n  return x;\n}\n"
expect 1 '' '4:7: c syntax' crun a.c a.script 10000

# what `emit` writes runs as the module says
"$program" emit "$top/examples/blink.iv" >blink.c || failed=1
script 'call setup\ncall blink\n'
expect 0 $'call color 255 128 0\ncall led 0\nret setup\ncall led 1\ncall tick\ncall led 0\ncall tick\nret blink\nend' '' crun blink.c a.script 10000
expect 0 going '' crun blink.c a.script 0

# each other fault of a C text
c 'void iv_a(void) {\n  iv_b();\n}\n'
expect 1 '' '5:3: c name' crun a.c a.script 10000
c 'void iv_a(void) {\n  break;\n}\n'
expect 1 '' '5:3: c type' crun a.c a.script 10000
c "static uint8_t iv_a = $(printf '(-%.0s' {1..301})"
expect 1 '' '4:623: c too deep' crun a.c a.script 10000

# scripts that do not read, or do not fit
c 'void iv_f(uint8_t const x) {\n}\n'
script '# none\ncall nope\n'
expect 7 '' 'script line 2: name' crun a.c a.script 10000
script 'call f 1 2\n'
expect 7 '' 'script line 1: count' crun a.c a.script 10000
script 'call f 255\ncall f 256\n'
expect 7 '' 'script line 2: range' crun a.c a.script 10000
script 'call f 1\ncall f x\nnone\n'
expect 7 '' 'script line 2: number' crun a.c a.script 10000
script 'call nope\n\nnone\n'
expect 7 '' 'script line 3: word' crun a.c a.script 10000
script 'call f 255\nreply x'
expect 7 '' 'script line 2: number' crun a.c a.script 10000
script ''
expect 0 end '' crun a.c a.script 0

# which comes first: loads, then the C text, then the script
script 'none\n'
expect 3 '' 'read fault' crun none.c none.script 10000
expect 3 '' 'read fault' crun a.c none.script 10000
printf '# %*s' $((1048576 - 2)) '' >a.script
expect 0 end '' crun a.c a.script 10000
printf ' ' >>a.script
expect 6 '' 'too large' crun a.c a.script 10000
c 'void'
expect 6 '' 'too large' crun a.c a.script 10000
expect 3 '' 'read fault' crun a.c none.script 10000
script 'none\n'
expect 1 '' '4:5: c syntax' crun a.c a.script 10000
truncate -s 268435457 long.c
expect 6 '' 'too large' crun long.c none.script 10000

# words that are no command
usage='usage: ivoryc emit FILE | check FILE | sites FILE | run FILE SCRIPT N | crun CFILE SCRIPT N | big K'
for steps in 100000001 0000000001 -1 +1 1x '' ' 1'; do
  expect 2 '' "$usage" crun a.c a.script "$steps"
done
expect 2 '' "$usage" crun a.c a.script
expect 2 '' "$usage" crun a.c '' 1
expect 2 '' "$usage" crun '' a.script 1
expect 2 '' "$usage" crun a.c a.script 1 2
c 'void iv_f(void) {\n}\n'
script 'call f'
expect 0 $'ret f\nend' '' crun a.c a.script 100000000
expect 0 $'ret f\nend' '' crun a.c a.script 000010000

[ $failed = 0 ] && echo "crun: ok"
exit $failed
