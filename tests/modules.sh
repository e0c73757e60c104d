#!/usr/bin/env bash
# Modules by the program: whether they are well typed, the checks that stand in them, and runs of them by scripts.
top=$(cd "$(dirname "$0")/.." && pwd)
"$top/ivoryc" --prove 2>/dev/null || exit 1
program=$top/crates/ivoryc/out/ivoryc
work=$(mktemp -d)
trap 'rm -rf "$work"' EXIT
cd "$work" || exit 1
failed=0

# expect STATUS OUT ERR WORDS: what the program says of the words; OUT and ERR without their last line end
expect() {
  local wanted=$1 out=$2 err=$3
  shift 3
  "$program" "$@" >out 2>err
  local status=$?
  if [ "$status" != "$wanted" ] || [ "$(cat out)" != "$out" ] || [ "$(cat err)" != "$err" ]; then
    echo "modules: wanted $wanted '$out' '$err', got $status '$(cat out)' '$(cat err)' of: $*"
    failed=1
  fi
}

text() { printf '%b' "$1" >a.iv; }
script() { printf '%b' "$1" >a.script; }
# runs SCRIPT REPORT [N]: the report of a run of a.iv
runs() { script "$1"; expect 0 "$(printf '%b' "$2")" '' run a.iv a.script "${3:-10000}"; }

# ---- check
text ''; expect 1 '' '1:1: unexpected token' check a.iv
text 'module m;\n'; expect 0 ok '' check a.iv
text 'module m;\nexport proc main() {'; expect 1 '' '2:21: unexpected token' check a.iv
text 'module m;\nproc bad(p : ref r uint8_t) -> ref r uint8_t {\n  alloc x : uint8_t;\n  return x;\n}\n'
expect 1 '' '4:10-4:11: rule 38' check a.iv
text 'module m;\nexport proc f() {\n  forever { nobreak { break; } }\n}\n'; expect 1 '' '3:23-3:29: rule 42' check a.iv
text 'module m;\nexport proc f() { let x = 5; }\n'; expect 1 '' '2:27-2:28: rule 18' check a.iv
text 'module m;\nexport proc f() { let x = uint8_t(256); }\n'; expect 1 '' '2:35-2:38: rule 19' check a.iv
text 'module m;\nexport proc f() {\n  let x =\n    uint8_t(1) +\n    uint16_t(2);\n}\n'; expect 1 '' '4:5-5:16: rule 21' check a.iv
text 'module m;'; printf '%*s' $((262144 - 9)) '' >>a.iv; expect 0 ok '' check a.iv
text 'module m;'; printf '%*s' $((262145 - 9)) '' >>a.iv; expect 6 '' 'too large' check a.iv
text 'module abcdefghijklmnopqrstuvwxyzab;'; expect 0 ok '' check a.iv
text 'module abcdefghijklmnopqrstuvwxyzabc;'; expect 1 '' '1:8: long name' check a.iv
expect 0 ok '' check "$top/tests/driver.iv"

# a rule's fault comes before the form of the module, and a module of another form that keeps the rules is not built yet
text 'module m;\nexport proc f() { let x = 5; }\n'; expect 1 '' '2:27-2:28: rule 18' emit a.iv
text 'module m;\nexport proc f() { let x = true; }\n'; expect 8 '' 'not built yet' emit a.iv
text 'module m;\nimport f();\nexport proc f() {}\n'; expect 1 '' '3:1-3:19: rule 1' emit a.iv

pick='module m;\narea out : uint8_t;\nproc pick(a : ref r uint8_t, b : ref r uint8_t) -> ref r uint8_t {\n  return b;\n}\nexport proc go(c : bool) {\n  alloc p : uint8_t = 1;\n  if c {\n    let x = pick(p, p);\n    *x = 5;\n  }\n  *out = *p;\n}\n'
text "${pick/pick(p, p)/pick(out, p)}"; expect 1 '' '9:23-9:24: rule 35' check a.iv

# ---- sites and runs
text 'module m;\nexport proc f(a : uint8_t, b : uint8_t) -> uint8_t {\n  return a + b;\n}\n'
expect 0 'site 0 overflow 3:12' '' sites a.iv
runs 'call f 255 0\n' 'ret f 255\nend\n'
runs 'call f 255 0\n' 'ret f 255\nend\n' 3
runs 'call f 255 0\n' 'going\n' 2
runs 'call f 255 1\n' 'stop 0\n'
text 'module m;\nexport proc f(a : int8_t, b : int8_t) -> int8_t {\n  return a / b;\n}\n'
expect 0 $'site 0 divzero 3:12\nsite 1 overflow 3:12' '' sites a.iv
runs 'call f -128 -1\n' 'stop 1\n'
runs 'call f -128 0\n' 'stop 0\n'
text 'module m;\nexport proc d(a : int32_t, b : int32_t) -> int32_t { return a / b; }\nexport proc r(a : int32_t, b : int32_t) -> int32_t { return a % b; }\n'
runs 'call d -7 2\ncall r -7 2\n' 'ret d -3\nret r -1\nend\n'
text 'module m;\nexport proc s(a : uint8_t, b : uint8_t) -> uint8_t { return a << b; }\n'
runs 'call s 1 7\ncall s 255 7\ncall s 1 8\n' 'ret s 128\nret s 128\nstop 0\n'
text 'module m;\nexport proc w(a : uint16_t, b : uint16_t) -> uint16_t { return a *% b; }\nexport proc c(a : uint16_t, b : uint16_t) -> uint16_t { return a * b; }\n'
runs 'call w 65535 65535\ncall c 65535 65535\n' 'ret w 1\nstop 0\n'
text 'module m;\nexport proc g(z : int32_t) -> bool { return false && (1 / z == 1); }\n'
runs 'call g 0\n' 'ret g 0\nend\n'
text 'module m;\nexport proc m(a : int64_t, b : int64_t) -> int64_t { return a * b; }\n'
runs 'call m 9223372036854775807 1\n' 'ret m 9223372036854775807\nend\n'
runs 'call m -9223372036854775808 -1\n' 'stop 0\n'
text 'module m;\narea n : uint8_t;\nexport proc up() { map i : ix(1) { *n = *n + 1; } }\nexport proc down(k : uint8_t) {\n  downto j : ix(4) first toix(4, k) { *n = *n + 1; }\n}\n'
runs 'call up\ncall down 0\ncall down 3\ncall down 4\n' 'ret up\nret down\nret down\nstop 1\narea n 6\n'
text "$pick"
runs 'call go 0\n' 'ret go\nend\narea out 1\n'
runs 'call go 1\n' 'ret go\nend\narea out 5\n'
text 'module m;\nimport tick();\nexport proc run() { forever { tick(); } }\n'
runs 'call run\n' 'going\n' 0
runs 'call run\n' 'going\n' 1
runs 'call run\n' 'call tick\ngoing\n' 3
runs 'call run\n' "$(printf 'call tick\\n%.0s' {1..499})going\n" 1000
text 'module m;\nimport get() -> uint8_t;\narea a : uint8_t;\nexport proc two() {\n  let x = get();\n  *a = x;\n  let y = get();\n  *a = y;\n}\n'
runs 'call two\nreply 7\n' 'call get\ncall get\nnoreply\narea a 7\n'
runs 'call two\nreply 7\nreply 256\n' 'call get\ncall get\nbadreply\narea a 7\n'
runs 'call two\nreply 7\nreply 9\n' 'call get\ncall get\nret two\nend\narea a 9\n'
text 'module m;\narea a : [1][1][1][1][1][1][1] uint8_t = {{{{{{{9}}}}}}};\narea b : [1][1][1][1][1][1][1] uint8_t;\nexport proc c() { copy b, a; }\n'
runs 'call c\n' 'ret c\nend\narea a 9\narea b 9\n' 9
runs 'call c\n' 'going\n' 8
text 'module m;\nimport fill(p : ref r [2] uint8_t);\narea d : [2] uint8_t = {1, 2};\nexport proc f() { fill(d); }\n'
runs 'call f\nreply 3 4\n' 'call fill [1 2]\nret f\nend\narea d 3 4\n'
script 'call nope\n'; expect 7 '' 'script line 1: name' run a.iv a.script 10000
script 'call f 1\n'; expect 7 '' 'script line 1: count' run a.iv a.script 10000

# the lengths of both texts come before what they say, the module before the script
printf '%*s' 1048577 '' >long.script
text 'module m'; expect 6 '' 'too large' run a.iv long.script 10000
text 'module m'; script 'none\n'; expect 1 '' '1:9: unexpected token' run a.iv a.script 10000
expect 2 '' 'usage: ivoryc emit FILE | check FILE | sites FILE | run FILE SCRIPT N | crun CFILE SCRIPT N | big K' run a.iv a.script 100000001

# a driver
kinds=$("$program" sites "$top/tests/driver.iv" | cut -d' ' -f3 | tr '\n' ' ')
[ "$kinds" = 'pre overflow pre post overflow overflow cast divzero overflow cast divzero ' ] || { echo "modules: the driver's sites are $kinds"; failed=1; }
{ echo 'call setup 5'; for _ in {1..13}; do printf 'call tick\ncall tick\ncall drain\n'; done; } >driver.script
"$program" run "$top/tests/driver.iv" driver.script 100000 >driver.report || failed=1
[ "$(wc -l <driver.report)" = 83 ] || { echo "modules: the driver's report has $(wc -l <driver.report) lines"; failed=1; }
[ "$(head -n 7 driver.report)" = $'ret setup\ncall led 0\nret tick\ncall led 1\nret tick\ncall send 1\nret drain' ] || { echo "modules: the driver's first lines"; failed=1; }
[ "$(grep -c '^call send' driver.report)" = 13 ] || { echo "modules: the driver sends another number"; failed=1; }
[ "$(tail -n 4 driver.report)" = $'end\narea ctrl 11\narea uart 5 7 19 21 23 25 13 14 15 17\narea ticks 26' ] || { echo "modules: the driver's last lines"; failed=1; }
script 'call setup 8\n'
expect 0 $'stop 6\narea ctrl 0\narea uart 0 0 0 0 0 0 0 0 0 0\narea ticks 0' '' run "$top/tests/driver.iv" a.script 10000

# ---- big
expect 0 $'big 3\nbytes 331\nsites 6\nret all 4998\nend\narea acc 4998' '' big 3
for word in 0 2001 00001 x ''; do
  "$program" big "$word" >out 2>err
  [ $? = 2 ] || { echo "modules: big '$word' is a command"; failed=1; }
done

[ $failed = 0 ] && echo "modules: ok"
exit $failed
