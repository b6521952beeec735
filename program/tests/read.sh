# shellcheck shell=bash disable=SC2034,SC2154 # program/test reads these files one after another; they share variables
# The verb read.

positions=('upright' 'turned 90 degrees clockwise' 'turned 180 degrees' 'turned 270 degrees clockwise' 'mirrored'
  'mirrored, then turned 90 degrees clockwise' 'mirrored, then turned 180 degrees' 'mirrored, then turned 270 degrees clockwise')

read_formats() {
  local format scale quiet
  for format in "${formats[@]}"; do
    for scale in 1 3 8; do
      for quiet in 0 3; do
        run 0 write --force --format "$format" --scale $scale --quiet-zone $quiet -o mark SN-0047
        reads SN-0047 mark
        [[ $format = text || $format = svg ]] || says 0 "position    upright; pixels for a module: $scale" read mark
      done
    done
  done
}

# Every position of a mark, by what people are told and by the fields of JSON; the picture that --show prints is upright.
read_positions() {
  local serial i
  for serial in SN-0047 "$(printf 'SN-%060d' 47)"; do
    run 0 write --force -o upright.txt "$serial"
    modules rows "$serial"
    for i in 0 1 2 3 4 5 6 7; do
      [ $i != 4 ] || { modules rows "$serial"; mirror <rows >mirrored; mv mirrored rows; }
      says 0 "position    ${positions[i]}; pixels" read --show rows
      tail -n +2 out | head -n "$(wc -l <upright.txt)" >shown
      same shown upright.txt
      reads "$serial" rows
      run 0 read --json rows
      json "d['position'] == '${positions[i]}' and d['turned'] == $((i % 4 * 90)) and d['mirrored'] == ($i > 3)"
      turn <rows >turned; mv turned rows
    done
  done
}

read_given_positions() {
  modules rows SN-0047
  reads SN-0047 --upright rows
  turn <rows >quarter; turn <quarter >half; mirror <rows >mirrored; turn <mirrored >mirrored_quarter
  run 1 read --upright quarter; run 1 read --upright half; run 1 read --upright mirrored
  reads SN-0047 --mirrored mirrored
  reads SN-0047 --mirrored mirrored_quarter
  run 1 read --mirrored rows
  says 2 '--upright and --mirrored exclude each other' read --upright --mirrored rows
}

read_several() {
  modules good SN-0047
  edit "$(echo {9..13},{2..20})" '' <good >bad
  says 1 'refused: 6, a block has more wrong codewords than can be repaired' read bad
  run 1 read good bad good
  check "a file was not read" [ "$(grep -c '^good: read' out)" = 2 ]
  has out 'bad: refused: 6'
  run 2 read none good
  has out 'good: read'; has err 'hanxin: none: cannot be read: No such file or directory'
  run 2 read bad none good
  run 2 read none bad good
  reads SN-0047 - <good
  run 0 read --json - <good
  json "d['file'] == '-' and d['payload_text'] == 'SN-0047'"
}

# What is no picture has failed; the words name the reason.
read_no_pictures() {
  mkdir folder; : >empty; printf ' \n' >white; printf '\001\002\003\377\376' >bytes; printf 'P3\n1 1\n255\n0 0 0\n' >colour
  printf '\377\330\377\340' >jpeg; printf '<svg xmlns="http://www.w3.org/2000/svg"></svg>' >foreign.svg
  says 2 'folder: cannot read: Is a directory' read folder
  says 2 'empty: the file is empty' read empty
  says 2 'white: the file has only white space' read white
  says 2 'bytes: not a picture; PNG, PBM' read bytes
  says 2 'colour: a colour picture (PPM, P3)' read colour
  says 2 'jpeg: a JPEG file' read jpeg
  says 2 'foreign.svg: an SVG file that hanxin did not write' read foreign.svg
  says 2 '-: cannot read: Bad file descriptor' read - <&-
  local format words
  for format in "${formats[@]}"; do
    [ "$format" != text ] || continue
    run 0 write --force --format "$format" -o whole SN-0047
    head -c "$(($(wc -c <whole) / 2))" whole >cut_short
    words='cut short'; [ "$format" != svg ] || words='an SVG file that hanxin did not write'
    run 2 read cut_short; silent out; has err "$words"; has err "hanxin: cut_short: "
    run 2 read --json cut_short
    json "d['outcome'] == 'failed' and d['words'] and d['refusal'] is None and d['payload_hex'] is None and d['side'] is None"
  done
}

read_netpbm() {
  run 0 write --force --scale 2 -o plain.pbm SN-0047
  sed '1s/$/ # a comment/;2s/ /\n# another\n/;9s/$/ # 2/' plain.pbm >comments; reads SN-0047 comments
  sed 's/$/\r/' plain.pbm >crlf; reads SN-0047 crlf
  { printf '\xEF\xBB\xBF'; cat plain.pbm; } >bom; reads SN-0047 bom
  sed '3,$s/./& /g' plain.pbm >spaced; reads SN-0047 spaced
  sed 's/$/\n/' plain.pbm >blank; reads SN-0047 blank
  { cat plain.pbm; cat plain.pbm; } >two; says 2 'something stands behind the last pixel' read two
  sed '$s/.$/3/' plain.pbm >three; says 2 "'3' where a pixel, 0, 1 or 2, should be" read three
}

# Grey pictures: 126 of 127 is light, 32 dark, and 64, which is 50.4 percent of white, between them.
read_grey() {
  modules rows SN-0047
  edit '' '10,3 11,18' <rows >hidden
  { printf 'P2\n23 23\n127\n'; sed 'y/012/abc/;s/a/126 /g;s/b/32 /g;s/c/64 /g' hidden; } >grey.p2
  { printf 'P5\n23 23\n127\n'; tr -d '\n' <hidden | tr 012 '~ @'; } >grey.p5
  local file
  for file in grey.p2 grey.p5; do
    reads SN-0047 "$file"
    says 0 'unknown     modules: 2' read --threshold 40-60 "$file"
    run 0 read --threshold 50 "$file"; lacks out 'unknown'
    run 0 read --threshold=60 "$file"; lacks out 'unknown'
    says 1 'refused because of the picture' read --threshold 10 "$file"
    says 1 'refused because of the picture' read --threshold 100 "$file"
  done
  for file in 101 60-40 0 -5 40- x 40-60-80; do says 2 '--threshold is a percentage of white' read --threshold "$file" rows; done
}

# The threshold decides which modules are dark: those with 64 are light at 50 and dark at 60.
read_threshold_decides() {
  modules rows SN-0047
  { printf 'P2\n23 23\n127\n'; edit '' '10,3' <rows | sed 'y/012/abc/;s/a/126 /g;s/b/32 /g;s/c/64 /g'; } >grey
  run 0 read --json --threshold 50 grey; cp out light
  run 0 read --json --threshold 60 grey
  check "the threshold does not decide" [ "$(grep -o '"corrected":[0-9]*' light out | cut -d : -f 3 | sort | tr -d '\n')" = 01 ]
}

read_pictures_without_a_square() {
  modules rows SN-0047
  sed '$d' rows >lower; says 1 'lower: refused because of the picture: the dark area is 23 x 22 pixels, which is no square' read lower
  tr 1 0 <rows >light; says 1 'the picture has no dark pixel' read light
  tr 01 10 <rows >inverse; says 1 'inverse: refused because of the picture' read inverse
  sed '1d;$d;s/^.//;s/.$//' rows >small; says 1 'refused because of the picture' read small
  run 1 read --json light
  json "d['outcome'] == 'refused' and d['refused_by'] == 'picture' and d['refusal'] is None and d['position'] is None"
  run 1 read --raw light; silent out; has err 'no dark pixel'
}

# A module with light and dark pixels.
read_mixed() {
  run 0 write --force --scale 3 --quiet-zone 0 -o scaled.pbm SN-0047
  sed '1,2d' scaled.pbm | edit '31,31' '' >mixed
  says 1 'the module in row 10 and column 10 of the picture'"'"'s square is not of one shade: of its 9 pixels' read mixed
  has out '(--mixed takes such modules as unknown)'
  says 0 'unknown     modules: 1' read --mixed mixed
  reads SN-0047 --mixed mixed
}

read_known() {
  modules rows --version 2 --level 1 --mask 3 SN-0047
  edit "$(echo 8,{0..8} {0..7},8)" '' <rows >no_information
  says 1 'refused: 4' read no_information
  reads SN-0047 --known 2,1,3 no_information
  reads SN-0047 --known=2,1,3 rows
  says 1 'refused: 2, the square has 25 x 25 modules, and version 3 has 27 x 27' read --known 3,1,3 rows
  run 1 read --known 2,2,3 rows; run 1 read --known 2,1,2 rows
  run 1 read --json --known 3,1,3 rows
  json "d['refused_by'] == 'library' and d['refusal'] == 2 and d['version'] is None and d['side'] == 25"
  local value
  for value in 2,1 0,1,3 85,1,3 2,4,3 2,1,4 2,1,3,0 a,b,c ''; do says 2 '--known is version, level and mask' read --known "$value" rows; done
}

# A mark of which four codewords are repaired.
read_policy() {
  run 0 demo --mask 0 --write four.pbm 00471100 6 11
  says 0 'codewords: 4; information modules that differed: 1 of 68' read four.pbm
  reads 00471100 --max-repairs 4 four.pbm
  says 1 'four.pbm: refused by policy: codewords repaired: 4, more than --max-repairs 3' read --max-repairs 3 four.pbm
  lacks both 00471100
  run 1 read --max-repairs 3 --show four.pbm; cat out err >both; lacks both 00471100
  run 1 read --max-repairs 3 --raw four.pbm; silent out; has err 'refused by policy'; lacks err 00471100
  run 1 overlay --max-repairs 3 four.pbm; silent out; has err 'refused by policy'; lacks err 00471100
  run 1 read --max-repairs 3 --json four.pbm; lacks out 00471100; lacks out "$(printf 00471100 | od -An -tx1 | tr -d ' \n')"
  json "d['refused_by'] == 'policy' and d['refusal'] is None and d['corrected'] == 4 and d['version'] == 1"
  json "d['payload_hex'] is None and d['payload_text'] is None and d['script'] is None"
  says 2 '--max-repairs is 0 to 9999' read --max-repairs x four.pbm
}

read_json() {
  local i
  for i in {0..255}; do printf '%b' "$(printf '\\0%03o' "$i")"; done >all_bytes
  run 0 write --exact --file all_bytes -o all.pbm; run 0 read --raw all.pbm; same out all_bytes
  run 0 read --json all.pbm
  json "bytes.fromhex(d['payload_hex']) == bytes(range(256)) and d['payload_text'] is None and d['script'] == ['bytes, 256 bytes']"
  printf 'a"b\\c\001\037\177\033[31m\tä\302\233z\n' >text
  run 0 write --exact --file text -o text.pbm; run 0 read --json text.pbm
  json "d['payload_text'].encode() == open('text', 'rb').read() and d['payload_text'].encode().hex() == d['payload_hex']"
  json "d['outcome'] == 'read' and d['refused_by'] is None and d['refusal'] == 0 and d['file_hex'] is None"
  json "(d['version'], d['level'], d['side'], d['corrected'], d['distance'], d['unknown_modules']) == (3, 2, 27, 0, 0, 0)"
  json "d['pixels_per_module'] == 4 and d['left'] == d['top'] == 12 and d['payload_length'] == 20 and d['script_length'] == 3"
  run 0 write --force -o 'a "b" \c.pbm' SN-0047; run 0 read --json 'a "b" \c.pbm'
  json "d['file'] == 'a \"b\" \\\\c.pbm' and d['file_hex'] is None"
  run 0 write --force -o $'b\xFF.pbm' SN-0047; run 0 read --json $'b\xFF.pbm'
  json "d['file'] == 'b\\ufffd.pbm' and bytes.fromhex(d['file_hex']) == b'b\\xff.pbm'"
  run 2 read --json text.pbm none all.pbm light
  json "[one['outcome'] for one in all] == ['read', 'failed', 'read', 'refused'] and 'No such file' in all[1]['words']"
}

# Characters that a terminal obeys are never printed as they are, whether they stand in a serial or in the name of a file.
read_escapes() {
  local serial=$'\e[31mred\302\233' name=$'\e[31m.pbm' arguments
  run 0 write -o "$name" "$serial"; tame
  for arguments in 'read' 'read --json' 'overlay'; do
    # shellcheck disable=SC2086
    run 0 $arguments "$name"; tame
  done
  run 0 demo "$serial"; tame
  run 2 write -o "$name" "$serial"; tame
  run 2 read $'\e[31m'; tame
  run 2 overlay $'\e[31m'; tame
  run 2 write --level $'\e[31m' a; tame
  run 0 read --raw "$name"; check "--raw does not give the bytes" [ "$(cat out)" = "$serial" ]
}
tame() {
  if env LC_ALL=C grep -qa $'\e\|\302\233' out err; then fault "it prints an escape sequence"; fi
}

read_usage() {
  says 2 'read takes one file or more' read
  says 2 '--raw is for one file' read --raw rows rows
  says 2 '--raw is for one file' read --raw --json rows
  says 2 '--raw is for one file' read --raw --show rows
  says 2 '--json and --show exclude each other' read --json --show rows
  says 2 'read has no option --level' read --level 2 rows
  says 2 '--known needs a value' read rows --known
}

test_read() {
  read_formats
  read_positions
  read_given_positions
  read_several
  read_no_pictures
  read_netpbm
  read_grey
  read_threshold_decides
  read_pictures_without_a_square
  read_mixed
  read_known
  read_policy
  read_json
  read_escapes
  read_usage
}
