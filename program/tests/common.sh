# shellcheck shell=bash disable=SC2034,SC2154 # program/test reads these files one after another; they share variables
# What all tests of the program use. `hanxin` is the program, `room` the folder of the tests; `out` and `err` have what it printed last.
: "${hanxin:?}" "${room:?}"
tests=0 left_out=() last='' formats=(text pbm p4 svg png)

fault() { echo "failed: hanxin $last: $1"; head -c 1500 out err; exit 1; }

start_tests() {
  if ! "$hanxin" --version | grep -q 'PNG is built in'; then formats=(text pbm p4 svg); left_out+=("PNG, which is not built in"); fi
  has_python=1
  if ! python3 -c 'import json' 2>/dev/null; then has_python=0; left_out+=("whether JSON and CSV are well formed, there is no python3"); fi
}

enter() { mkdir "$room/$1"; cd "$room/$1" || exit 1; : >out; : >err; }   # enter NAME: a folder for the tests of one verb

run() {   # run STATUS ARGUMENT ..: runs the program, which must end with this status
  local status=0
  last="${*:2}" tests=$((tests + 1))
  "$hanxin" "${@:2}" >out 2>err || status=$?
  [ "$status" = "$1" ] || fault "ended with $status, not $1"
}
has() { grep -qaF -- "$2" "$1" || fault "$1 lacks '$2'"; }            # has FILE WORDS
lacks() { if grep -qaF -- "$2" "$1"; then fault "$1 has '$2'"; fi; }  # lacks FILE WORDS
silent() { [ ! -s "$1" ] || fault "$1 is not empty"; }                # silent FILE
same() { cmp -s "$1" "$2" || fault "$1 and $2 differ"; }              # same FILE FILE
check() { tests=$((tests + 1)); "${@:2}" || fault "$1"; }             # check WORDS COMMAND ..: the command must succeed
says() { run "$1" "${@:3}"; cat out err >both; has both "$2"; }       # says STATUS WORDS ARGUMENT ..
reads() {   # reads PAYLOAD ARGUMENT ..: these arguments of read give this payload
  run 0 read --raw "${@:2}"
  printf %s "$1" >expected
  same expected out
}
# A failure leaves nothing: no file that is half written, and none of the name that was wanted.
leaves_no() { [ ! -e "$1" ] || fault "there is a file '$1'"; [ -z "$(find . -name '*.part')" ] || fault "there is a file .part"; }

# A mark as rows of digits, one for each module, and nothing around: modules FILE ARGUMENT-OF-WRITE ..
modules() { run 0 write --format pbm --scale 1 --quiet-zone 0 -o "$1.pbm" "${@:2}"; sed 1,2d "$1.pbm" >"$1"; rm "$1.pbm"; }

# Changes modules in rows of digits: edit FLIPS UNKNOWN <ROWS, both as 'row,column row,column ..' from 0.
edit() {
  awk -v flips="$1" -v unknown="$2" '
    BEGIN {
      n = split(flips, f, " "); for (i = 1; i <= n; i++) flip[f[i]] = 1
      n = split(unknown, u, " "); for (i = 1; i <= n; i++) hide[u[i]] = 1
    }
    {
      line = ""
      for (i = 1; i <= length($0); i++) {
        c = substr($0, i, 1); place = NR - 1 "," i - 1
        line = line (place in hide ? 2 : place in flip ? 1 - c : c)
      }
      print line
    }'
}

# Turns rows of digits clockwise by 90 degrees; mirrors them from left to right.
turn() { awk '{ n = length($0); for (i = 1; i <= n; i++) row[i] = substr($0, i, 1) row[i] } END { for (i = 1; i <= n; i++) print row[i] }'; }
mirror() { awk '{ line = ""; for (i = 1; i <= length($0); i++) line = substr($0, i, 1) line; print line }'; }

# json EXPRESSION: every line of out is an object with all keys in their order, and the expression in Python holds; d is the first object,
# all has all of them.
json() {
  if [ "$has_python" = 0 ]; then return; fi
  check "its JSON is not as it should be: $1" python3 -c '
import json, sys
keys = """file file_hex outcome refused_by refusal words version level mask corrected distance payload_length script_length side
unknown_modules position turned mirrored pixels_per_module left top payload_hex payload_text script""".split()
lines = open("out", "rb").read().decode("utf-8").split("\n")
assert lines.pop() == ""
all = [json.loads(line) for line in lines]
for one in all:
    assert list(one) == keys, list(one)
d = all[0]
sys.exit(0 if eval(sys.argv[1]) else 1)' "$1"
}

# Where no file can grow, as on a full disk: it ends with 2, says why, and leaves nothing.
full_disk() {
  last="$* (on a full disk)" tests=$((tests + 1))
  (trap '' XFSZ; ulimit -f 0; status=0; "$hanxin" "$@" 2>&1 || status=$?; echo "status $status") | cat >out
  has out 'status 2'
  has out 'File too large'
}
