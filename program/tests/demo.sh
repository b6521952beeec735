# shellcheck shell=bash disable=SC2034,SC2154 # program/test reads these files one after another; they share variables
# The verb demo.

demo_readings() {
  says 0 'codewords: 4; information modules that differed: 1 of 68' demo 00471100 6 11
  has out 'the mark for "00471100":'; has out 'with 6 of its 529 modules flipped:'; has out 'payload     8 bytes: "00471100"'; silent err
  cp out first
  run 0 demo 00471100 6 11; same out first
  run 0 demo 00471100 6 12; check "another seed takes the same modules" bash -c '! cmp -s out first'
  run 0 demo --mask 0 00471100
  has out 'codewords: 0; information modules that differed: 0 of 68'; lacks out 'flipped'
  says 0 'with 8 of its 529 modules unknown, shown as ??:' demo --mask 0 --unknown 8 00471100 0 22
  has out 'codewords: 2; information modules that differed: 1 of 68'; has out '??'
  says 0 'with 2 of its 529 modules flipped and 6 unknown' demo --unknown 6 00471100 2
  says 1 'refused: 6, a block has more wrong codewords than can be repaired' demo 00471100 8% 11
  has out 'with 42 of its 529 modules flipped:'
  says 1 'refused: 15, a block has more codewords with unknown modules than parity codewords' demo --unknown 12% 00471100
  says 1 'refused: 8' demo ''
  says 1 'refused: 14' demo "$(printf '%09000d' 0)"
  says 1 'refused: 13' demo --version 1 "$(printf '%0100d' 0)"
  says 0 'version 7, 35 x 35 modules, level 3, mask 2' demo --version 7 --level 3 --mask 2 00471100
  says 0 'payload     1 bytes: "-"' demo -- -
}

demo_written() {
  run 0 demo --unknown 6 --write mark.pbm 00471100 2
  check "the file is no P1 of 23 x 23" [ "$(head -n 2 mark.pbm | tr '\n' ' ')" = 'P1 23 23 ' ]
  check "the file has not six unknown modules" [ "$(sed 1,2d mark.pbm | tr -dc 2 | wc -c)" = 6 ]
  reads 00471100 mark.pbm
  cp mark.pbm kept
  says 2 "'mark.pbm' is there already" demo --write mark.pbm 00471100; same mark.pbm kept
  run 0 demo --force --write mark.pbm 00471100; check "the file was not replaced" bash -c '! cmp -s mark.pbm kept'
  run 0 demo --unknown 6 --write - 00471100 2
  same out kept
  has err 'the mark for "00471100":'; has err 'payload     8 bytes: "00471100"'
  leaves_no -
  says 1 'refused: 6' demo --write beyond.pbm 00471100 8% 11; says 1 'refused: 6' read beyond.pbm
  says 2 'No space left on device' demo --write /dev/full 00471100
  full_disk demo --write full.pbm 00471100; leaves_no full.pbm
}

demo_usage() {
  says 2 'demo takes a serial' demo
  says 2 'demo takes a serial' demo a 1 2 3
  says 2 'not a number of modules' demo a 530
  says 2 'not a number of modules' demo a 101%
  says 2 'not a number of modules' demo a x
  says 2 'not a number of modules' demo --unknown 530 a
  says 2 'more modules than the mark has' demo --unknown 1 a 529
  says 2 'SEED is 0 to 999999999' demo a 1 x
  says 2 'demo has no option --scale' demo --scale 3 a
}

test_demo() {
  demo_readings
  demo_written
  demo_usage
}
