# shellcheck shell=bash disable=SC2034,SC2154 # program/test reads these files one after another; they share variables
# The verb batch.

batch() { run "$1" batch --format pbm --scale 1 -d "${@:2}"; }   # batch STATUS DIR ARGUMENT ..
payloads() {   # payloads DIR PAYLOAD ..: its files, in the order of their names, have these payloads, and there are no others
  local file folder=$1 found=()
  shift
  for file in "$folder"/*.pbm; do found+=("$("$hanxin" read --raw "$file")"); done
  last="batch, files of $folder"
  check "the payloads are ${found[*]@Q}, not ${*@Q}" [ "${found[*]@Q}" = "${*@Q}" ]
}
rows() { sed 1d "$1/manifest.csv" | cut -d , -f "$2" | tr '\n' ' '; }   # rows DIR COLUMNS

batch_lines() {
  printf 'SN-1\nSN-2\n' >lf; printf 'SN-1\r\nSN-2\r\n' >crlf; printf '\xEF\xBB\xBFSN-1\nSN-2\n' >bom; printf 'SN-1\nSN-2' >open
  local name
  for name in lf crlf bom open; do
    batch 0 "by-$name" $name
    has out "by-$name/manifest.csv: written: 2, refused: 0, failed: 0"
    silent err
    payloads "by-$name" SN-1 SN-2
    check "the manifest of $name is another" cmp -s by-lf/manifest.csv "by-$name/manifest.csv"
  done
  batch 0 by-input - <lf; payloads by-input SN-1 SN-2
  printf 'SN-1\rSN-2\n' >cr; batch 0 by-cr cr; payloads by-cr $'SN-1\rSN-2'
}

batch_refused_lines() {
  { printf 'SN-1\n\nSN-3\n'; head -c 9000 /dev/zero | tr '\0' a; printf '\nSN-5\n\n'; } >list
  batch 1 refused list
  has out 'written: 3, refused: 3, failed: 0'
  has err 'hanxin: line 2: refused: 8, the payload is empty'
  has err 'hanxin: line 4: refused: 14, '
  has err 'hanxin: line 6: refused: 8, '
  payloads refused SN-1 SN-3 SN-5
  check "the manifest has other lines" [ "$(rows refused 1-3)" = '1,SN-1,000001.pbm 3,SN-3,000003.pbm 5,SN-5,000005.pbm ' ]
  printf '0123456789012345678901234567890123456789\n1\n' >list
  batch 1 version --version 1 list; has err 'line 1: refused: 13, '; payloads version 1
}

# Records that are quoted may have commas, quotes and line ends; what is wrong with a record is said by the line at which it begins.
batch_csv() {
  printf 'part,"serial, new",note\r\n1,SN-1,x\r\n2,"SN,""2""",x\r\n3,"SN\r\n3","a\nb"\r\n4\r\n\r\n5,"SN"5,x\r\n6,SN-6,"x""y"\r\n' >list.csv
  batch 1 by-name --column 'serial, new' list.csv
  payloads by-name SN-1 'SN,"2"' $'SN\r\n3' SN-6
  has err 'line 7: there is no column 2: the record has 1'
  has err 'line 8: there is no column 2: the record has 1'
  has err "line 9: a field's quotes do not end, or something stands behind them"
  has out 'written: 4, refused: 3, failed: 0'
  batch 1 by-number --column 2 list.csv
  payloads by-number 'serial, new' SN-1 'SN,"2"' $'SN\r\n3' SN-6
  batch 0 first --column 1 lf; payloads first SN-1 SN-2
  printf '\xEF\xBB\xBFserial\nSN-1\n' >bom.csv; batch 0 bom-csv --column serial bom.csv; payloads bom-csv SN-1
  printf 'serial\n"SN-1\nSN-2\n' >wrong.csv; batch 1 wrong --column serial wrong.csv; has err 'line 2: a field'
  says 2 "names no column 'none'" batch -d none --column none list.csv
  says 2 'columns are counted from 1' batch -d none --column 0 list.csv
  leaves_no none
  if [ "$has_python" = 0 ]; then return; fi
  check "the manifest is no CSV with the serials" python3 -c '
import csv
rows = list(csv.DictReader(open("by-name/manifest.csv", newline="")))
assert [row["serial"] for row in rows] == ["SN-1", "SN,\"2\"", "SN\r\n3", "SN-6"]
assert [row["line"] for row in rows] == ["2", "3", "4", "10"] and rows[3]["file"] == "000010.pbm"'
}

batch_names() {
  printf 'A/b c\nZ-9_.\n../é\n' >list
  batch 0 names --pattern 'part-{serial}.{n}' list
  check "the names are others" [ "$(cd names && echo ./*.pbm)" = './part-A_b_c.000001.pbm ./part-Z-9__.000002.pbm ./part-_____.000003.pbm' ]
  payloads names 'A/b c' Z-9_. ../é
  printf 'a b\na_b\nc\n' >twice
  batch 2 same --pattern '{serial}' twice
  has err "line 2: an earlier line has the name 'a_b.pbm' too"
  has out 'written: 2, refused: 0, failed: 1'
  payloads same 'a b' c
  batch 2 same --force --pattern '{serial}' twice
  payloads same 'a b' c
  check "the manifest has a file twice" [ "$(rows same 2,3)" = 'a b,a_b.pbm c,c.pbm ' ]
  batch 2 too-long --pattern "{n}$(printf '%0230d' 0)" lf
  has err 'line 1: the name of the file is longer than 230 bytes'; has out 'written: 0, refused: 0, failed: 2'
  says 2 '--pattern has {n} or {serial}' batch -d none --pattern mark list
  says 2 '--pattern has {n} or {serial}' batch -d none --pattern 'a/{n}' list
  leaves_no none
}

batch_places() {
  batch 0 again lf
  cp again/000001.pbm kept; printf 'SN-7\nSN-8\n' >other
  batch 2 again other
  has err "'again/manifest.csv' is there already (--force replaces it)"
  check "a file was replaced" cmp -s again/000001.pbm kept
  batch 2 again --manifest new.csv other
  has err "line 1: 'again/000001.pbm' is there already (--force replaces it)"
  check "a file was replaced" cmp -s again/000001.pbm kept
  batch 0 again --force other; payloads again SN-7 SN-8
  check "the manifest is the old one" [ "$(rows again 2)" = 'SN-7 SN-8 ' ]
  says 2 'cannot make the directory' batch -d none/below lf
  says 2 'Not a directory' batch -d lf lf
}

batch_usage() {
  : >empty
  says 2 "'empty' is empty" batch -d none empty
  says 2 "cannot read 'nothing'" batch -d none nothing
  says 2 "cannot read '.'" batch -d none .
  says 2 'batch takes one list' batch lf
  says 2 'batch takes one list' batch -d none
  says 2 'batch takes one list' batch -d none lf lf
  says 2 'batch has no option --output' batch --output x lf
  leaves_no none
}

# Where the disk is full, or the manifest cannot be written, no file counts.
batch_without_room() {
  full_disk batch --format pbm -d full lf
  leaves_no full/000001.pbm
  says 2 'No space left on device' batch --format pbm -d device --force --manifest /dev/full lf
  leaves_no device/000001.pbm
}

# Bits by the formulas of docs/SPECIFICATION.md 9.4, and what the files themselves say.
batch_manifest() {
  printf '1\n12345678901\n00471100\nA\n-\nSN-0047/b\na,b\né\n' >list
  batch 0 manifest --level 1 list
  check "the columns are others" [ "$(head -n 1 manifest/manifest.csv)" = line,serial,file,version,level,mask,bits ]
  check "the bits are others" [ "$(sed '1d;s/.*,//' manifest/manifest.csv | tr '\n' ' ')" = '24 54 44 16 22 88 40 33 ' ]
  check "there is no row for each file" [ "$(sed 1d manifest/manifest.csv | wc -l)" = 8 ]
  local line file version level mask
  while IFS=, read -r file version level mask line; do
    says 0 "version $version, $((2 * version + 21)) x $((2 * version + 21)) modules, level $level, mask $mask" read "manifest/$file"
  done < <(sed '1d;s/.*\(00000[0-9]\.pbm\)/\1/' manifest/manifest.csv)
}

batch_formats() {
  local format extension
  seq -f 'SN-%04g' 40 >list
  for format in "${formats[@]}"; do
    run 0 batch --format "$format" -d "as-$format" list
    silent err
    extension=$format; [ "$format" != text ] || extension=txt; [ "$format" != p4 ] || extension=pbm
    run 0 read "as-$format"/*."$extension"
    sed -n 's/^  payload     7 bytes: "\(.*\)"$/\1/p' out >found
    same found list
  done
  run 0 batch -d as-default list
  run 0 read as-default/*.p[nb][gm]
}

await() {   # await DIR: until a run has come far enough to be stopped
  local i
  for ((i = 0; i < 200; i++)); do
    if [ -e "$1/manifest.csv" ] && [ "$(wc -l <"$1/manifest.csv")" -gt 100 ]; then return; fi
    sleep 0.05
  done
  fault "a run does not come far enough"
}

# What is there when a long run is stopped: the files that the manifest has, whole, and no others.
batch_stopped() {   # batch_stopped SIGNAL STATUS
  local folder=stopped-$1 status=0 job
  seq -f 'SN-%07g' 20000 >long
  env --default-signal=TERM,INT "$hanxin" batch --format pbm --scale 1 -d "$folder" long >out 2>err & job=$!
  await "$folder"
  kill "-$1" $job
  { wait $job; } 2>/dev/null || status=$?
  last="batch, stopped by $1"
  cp err stopped_words
  check "ended with $status, not $2" [ $status = "$2" ]
  (cd "$folder" && find . -name '*.pbm' | cut -c 3- | sort) >found
  sed 1d "$folder/manifest.csv" | cut -d , -f 3 | sort >listed
  check "a file has no row in the manifest" [ -z "$(comm -23 found listed)" ]
  check "it went on to the end" [ "$(wc -l <listed)" -lt 20000 ]
  sed 's/.*/SN-0&/;s/\.pbm//' found >serials
  run 0 read "$folder"/*.pbm
  sed -n 's/^  payload     10 bytes: "\(.*\)"$/\1/p' out | sort >read_serials
  same serials read_serials
}

# A run that was told to ignore a signal, as nohup does, goes on.
batch_ignored() {
  local status=0 job
  seq 1000 >list
  (trap '' HUP; exec "$hanxin" batch --format pbm --scale 1 -d ignored list >out 2>err) & job=$!
  await ignored
  kill -HUP $job
  wait $job || status=$?
  last='batch, with HUP ignored'
  check "ended with $status, not 0" [ $status = 0 ]
  has out 'written: 1000, refused: 0, failed: 0'
}

batch_signals() {
  batch_ignored
  if ! env --default-signal=INT true 2>/dev/null; then left_out+=("signals, env cannot set them to their defaults"); return; fi
  batch_stopped TERM 2
  has stopped_words 'hanxin: stopped behind line '
  check "the manifest has other files" cmp -s found listed
  leaves_no stopped-TERM/any.part
  batch_stopped KILL 137
  batch_stopped INT 2
  check "the manifest has other files" cmp -s found listed
}

# The bar is for a terminal. In the manifest a serial has its bytes as they are; in messages it never has.
batch_words() {
  printf '\e[31mred\n\e[31mred\n\n' >list
  batch 2 words --pattern '{serial}' list
  tame
  check "the manifest has another serial" grep -qF $'1,\e[31mred,__31mred.pbm,' words/manifest.csv
  if ! script -qec true /dev/null >/dev/null 2>&1; then left_out+=("what is shown on a terminal, there is no script of util-linux"); return; fi
  seq 300 >list
  check "it fails on a terminal" script -qec "'$hanxin' batch --format pbm -d bar list" typescript >/dev/null
  check "there is no bar" grep -qa '\[=====* *\]  *[0-9]* %, written: ' typescript
  run 0 write -o mark.pbm 1
  local arguments
  for arguments in 'write --format p4 1' 'write --format png 1' 'overlay --format png mark.pbm'; do
    script -qec "'$hanxin' $arguments" /dev/null >out </dev/null || true
    has out 'file is not for a terminal: give -o FILE'
  done
  script -qec "'$hanxin' write 1" /dev/null >out </dev/null
  check "there are no colours" grep -qa $'^\e\[30;107m' out
}

test_batch() {
  batch_lines
  batch_refused_lines
  batch_csv
  batch_names
  batch_places
  batch_usage
  batch_without_room
  batch_manifest
  batch_formats
  batch_signals
  batch_words
}
