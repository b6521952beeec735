# shellcheck shell=bash disable=SC2034,SC2154 # program/test reads these files one after another; they share variables
# The verb write.

write_formats() {
  local format starts=([0]='[ ]' [1]='P1' [2]='P4' [3]='<svg ' [4]='\x89PNG') i=0
  for format in "${formats[@]}"; do
    run 0 write --format "$format" SN-0047
    silent err
    cp out printed
    check "$format does not begin as it should" env LC_ALL=C grep -qaP -m 1 "^${starts[i]}" printed
    run 0 write --format "$format" --output "by-option.$format" SN-0047
    has out "by-option.$format: version 1, 23 x 23 modules, level 2, mask "
    same printed "by-option.$format"
    reads SN-0047 "by-option.$format"
    run 0 write --format "$format" -o - SN-0047
    same printed out
    i=$((i + 1))
  done
}

write_extensions() {
  local pair
  for pair in txt:text pbm:pbm svg:svg png:png; do
    [[ " ${formats[*]} " = *" ${pair#*:} "* ]] || continue
    run 0 write -o "mark.${pair%:*}" SN-0047
    same "mark.${pair%:*}" "by-option.${pair#*:}"
  done
  run 0 write -o another.png --format pbm SN-0047
  same another.png by-option.pbm
  run 0 write SN-0047
  same out by-option.text
  says 2 'does not tell the format' write -o mark SN-0047
  says 2 'does not tell the format' write -o mark.jpg SN-0047
  leaves_no mark.jpg
}

write_look() {
  run 0 write --format pbm --scale 5 --quiet-zone 2 -o look.pbm SN-0047
  check "the scale and the quiet zone do not count" [ "$(sed -n 2p look.pbm)" = '135 135' ]
  run 0 write --format svg --quiet-zone 2 --module 0.5 SN-0047
  has out 'width="13.5mm" height="13.5mm" viewBox="0 0 27 27"'
}

# The serial of a file: one line end and a byte order mark are taken off, and with --exact nothing is.
write_sources() {
  local name
  printf 'SN-1' >plain; printf 'SN-1\n' >lf; printf 'SN-1\r\n' >crlf; printf '\xEF\xBB\xBFSN-1\n' >bom
  for name in plain lf crlf bom; do
    run 0 write -o "$name.pbm" --file "$name"; reads SN-1 "$name.pbm"
    run 0 write -o "$name.1.pbm" - <"$name"; same "$name.pbm" "$name.1.pbm"
    run 0 write -o "$name.2.pbm" --file - <"$name"; same "$name.pbm" "$name.2.pbm"
    run 0 write --exact -o "$name.3.pbm" --file "$name"; run 0 read --raw "$name.3.pbm"; same out "$name"
    run 0 write --exact -o "$name.4.pbm" - <"$name"; same "$name.3.pbm" "$name.4.pbm"
  done
  printf 'SN-1\n\n' >twice
  run 0 write -o twice.pbm --file twice; reads $'SN-1\n' twice.pbm
  printf 'SN-1\r' >cr
  run 0 write -o cr.pbm --file cr; reads $'SN-1\r' cr.pbm
  run 0 write -o argument.pbm $'SN-1\n'; reads $'SN-1\n' argument.pbm
}

write_operands() {
  run 0 write -o dash.pbm -- - </dev/null; reads - dash.pbm
  run 0 write -o option.pbm -- --level; reads --level option.pbm
  run 0 write -o before.pbm - -- <lf; reads SN-1 before.pbm
  run 0 write -o dashes.pbm -- --; reads -- dashes.pbm
  run 0 write SN-1 -o behind.pbm; reads SN-1 behind.pbm
  run 0 write --output=a.pbm --level=3 --mask=1 SN-1; has out 'a.pbm: version 1, 23 x 23 modules, level 3, mask 1; bits: 46'
  run 0 write --output b.pbm --level 3 --mask 1 SN-1; same a.pbm b.pbm
  run 0 write -o c.pbm --level 3 --mask 1 SN-1; same a.pbm c.pbm
  run 0 write -od.pbm --level 3 --mask 1 SN-1; same a.pbm d.pbm
}

# Which level, mask and version the mark has is said by the reader, too.
write_choices() {
  local level mask version chosen
  for level in 0 1 2 3; do
    for mask in 0 1 2 3; do
      run 0 write --force -o choice.pbm --level $level --mask $mask SN-0047
      says 0 "level $level, mask $mask" read choice.pbm
      cp choice.pbm "choice.$level$mask"
    done
    run 0 write --force -o auto.pbm --level $level --mask auto SN-0047
    chosen=$(sed -n 's/.*, mask \([0-3]\);.*/\1/p' out)
    same auto.pbm "choice.$level$chosen"
    run 0 write --force -o default.pbm --level $level SN-0047
    same auto.pbm default.pbm
  done
  check "two masks give the same mark" [ "$(sha256sum choice.?? | cut -d ' ' -f 1 | sort -u | wc -l)" = 16 ]
  for version in 1 7 84; do
    run 0 write --force -o version.pbm --scale 2 --version $version SN-0047
    says 0 "version $version, $((2 * version + 21)) x" read version.pbm
  done
}

# The shortest mode that has all the bytes.
write_modes() {
  run 0 write -o mode.pbm 00471100; says 0 'script      numeric, 8 bytes' read mode.pbm
  run 0 write --force -o mode.pbm SN-0047/b; says 0 'script      text, 9 bytes' read mode.pbm
  run 0 write --force -o mode.pbm é; says 0 'script      bytes, 2 bytes' read mode.pbm
  has out '"\xC3\xA9"'
}

write_refusals() {
  local digits
  digits=$(printf '%07828d' 0)
  run 0 write -o most.pbm --level 0 --scale 1 "${digits:1}"; has out 'version 84'; reads "${digits:1}" most.pbm
  refused 8 ''
  refused 8 --version 3 ''
  refused 13 --version 1 --level 3 01234567890123456789
  refused 13 --version 84 --level 0 "$digits"
  refused 14 --level 0 "$digits"
  head -c 9000 /dev/zero >zeros; refused 14 --file zeros
  head -c 100000 /dev/zero >zeros; refused 14 --file zeros
  refused 14 --exact --file zeros
  refused 13 --version 84 --file zeros
  : >empty; refused 8 --file empty
  printf '\n' >empty; refused 8 --file empty
}
refused() {   # refused NUMBER ARGUMENT ..
  run 1 write -o refused.pbm "${@:2}"
  has err "hanxin: refused: $1, "
  silent out
  leaves_no refused.pbm
}

write_usage() {
  says 2 'write takes one serial' write
  says 2 'write takes one serial' write a b
  says 2 'write takes one serial' write --file lf b
  says 2 'write has no option --lvel' write --lvel 2 a
  says 2 'write has no option --json' write --json a
  says 2 'write has no option -x' write -x a
  says 2 '--level needs a value' write --level
  says 2 '-o needs a value' write a -o
  says 2 '--force has no value' write --force=yes a
  says 2 '--level is 0 to 3' write --level 4 a
  says 2 '--level is 0 to 3' write --level=-1 a
  says 2 '--level is 0 to 3' write --level= a
  says 2 '--level is 0 to 3' write --level 2x a
  says 2 '--level is 0 to 3' write --level 18446744073709551618 a
  says 2 '--mask, if it is not auto, is 0 to 3' write --mask 4 a
  says 2 '--version of a mark is 1 to 84' write --version 85 a
  says 2 '--version of a mark is 1 to 84' write --version 0 a
  says 2 '--scale is 1 to 500' write --scale 0 a
  says 2 '--quiet-zone is 0 to 100' write --quiet-zone 101 a
  says 2 '--module is a length' write --module -1 a
  says 2 '--module is a length' write --module 1e2 a
  says 2 '--format is text, pbm, p4, svg or png' write --format gif a
  says 2 "cannot read 'none'" write --file none
  says 2 "cannot read '.'" write --file .
  says 2 'more than 20,000 pixels' write --scale 500 --version 84 -o large.pbm a
  leaves_no large.pbm
}

write_places() {
  printf mine >there.pbm
  printf mine >own.pbm.part; run 0 write -o own.pbm SN-1; check "a file of the user was replaced" [ "$(cat own.pbm.part)" = mine ]
  rm own.pbm.part
  says 2 "'there.pbm' is there already (--force replaces it)" write -o there.pbm SN-1
  check "the file was changed" [ "$(cat there.pbm)" = mine ]
  run 0 write --force -o there.pbm SN-1; reads SN-1 there.pbm
  says 2 'No space left on device' write --format pbm -o /dev/full SN-1
  run 0 write --format pbm -o /dev/null SN-1
  mkdir folder.pbm
  says 2 'Is a directory' write -o folder.pbm SN-1
  says 2 'Is a directory' write --force -o folder.pbm SN-1
  says 2 'No such file or directory' write -o none/mark.pbm SN-1
  ln -s nothing link.pbm
  says 2 'cannot write' write -o link.pbm SN-1
  leaves_no nothing
  write_without_room
}

write_without_room() {
  local format
  for format in "${formats[@]}"; do full_disk write --format "$format" -o "full.$format" SN-1; leaves_no "full.$format"; done
  printf mine >kept.pbm
  full_disk write --force -o kept.pbm SN-1
  check "the file was changed" [ "$(cat kept.pbm)" = mine ]
  if [ "$(id -u)" = 0 ]; then left_out+=("a folder that cannot be written to: root can"); return; fi
  mkdir closed; chmod a-w closed
  says 2 'Permission denied' write -o closed/mark.pbm SN-1
}

test_write() {
  write_formats
  write_extensions
  write_look
  write_sources
  write_operands
  write_choices
  write_modes
  write_refusals
  write_usage
  write_places
  leaves_no any.part
}
