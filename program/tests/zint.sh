# shellcheck shell=bash disable=SC2034,SC2154 # program/test reads these files one after another; they share variables
# Marks of the program zint. Of its kinds of files PNG can be read, as zint makes it without options, and scaled or turned.

# zint_mark PAYLOAD ARGUMENT-OF-ZINT ..
zint_mark() {
  rm -f zint.png
  zint -b HANXIN -o zint.png -d "$1" "${@:2}" 2>zint_words || fault "zint fails: $(cat zint_words)"
  reads "$1" zint.png
  run 0 overlay zint.png
  has err 'data modules that differ: 0; information modules: 0; unknown: 0'
  lacks out '++'; lacks out '--'; lacks out '??'
}

test_zint() {
  if ! command -v zint >/dev/null; then left_out+=("marks of zint, there is no zint"); return; fi
  [[ " ${formats[*]} " = *' png '* ]] || return 0
  local kind
  zint_mark 00471100
  zint_mark SN-0000001 --secure=1
  zint_mark 'Text with {all} kinds, 123' --secure=4 --scale=3
  zint_mark "$(printf '%0400d' 7)" --vers=30
  zint_mark turned --rotate=180
  says 0 'position    turned 180 degrees' read zint.png
  zint_mark SN-0000002 --whitesp=5 --vwhitesp=2
  for kind in svg bmp gif; do
    zint -b HANXIN -d 1 --filetype=$kind -o "zint.$kind"
    run 2 read "zint.$kind"
  done
}
