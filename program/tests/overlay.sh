# shellcheck shell=bash disable=SC2034,SC2154 # program/test reads these files one after another; they share variables
# The verb overlay.

# The text of an overlay, cell by cell, made of the mark as it was written: expect ROWS SHOWN NOT-SHOWN UNKNOWN, where the modules of the
# second and third are flipped, and of these the third are modules of patterns.
expect() {
  awk -v shown="$2" -v plain="$3" -v unknown="$4" '
    BEGIN {
      n = split(shown, s, " "); for (i = 1; i <= n; i++) differ[s[i]] = 1
      n = split(plain, p, " "); for (i = 1; i <= n; i++) flip[p[i]] = 1
      n = split(unknown, u, " "); for (i = 1; i <= n; i++) hide[u[i]] = 1
    }
    {
      line = ""
      for (i = 1; i <= length($0); i++) {
        c = substr($0, i, 1); place = NR - 1 "," i - 1
        if (place in flip) c = 1 - c
        line = line (place in hide ? "??" : place in differ ? (c == 1 ? "--" : "++") : c == 1 ? "██" : "  ")
      }
      print line
    }' "$1"
}

overlay_clean() {
  local version
  for version in 1 5; do
    modules rows --version $version SN-0047
    run 0 write --force --version $version -o mark.txt SN-0047
    run 0 overlay rows
    same out mark.txt
    has err 'rows: data modules that differ: 0; information modules: 0; unknown: 0'
    run 0 overlay --format svg rows
    check "the SVG has more than one path" [ "$(grep -c '<path' out)" = 1 ]
  done
}

# overlay_case VERSION SHOWN NOT-SHOWN UNKNOWN UNKNOWN-NOT-SHOWN COUNTS
overlay_case() {
  modules rows --version "$1" --level 2 SN-0047
  edit "$2 $3" "$4 $5" <rows >scratched
  expect rows "$2" "$3" "$4" >expected_text
  run 0 overlay --quiet-zone 0 scratched
  same out expected_text
  has err "scratched: $6"
  run 0 overlay --quiet-zone 0 --force -o overlay.txt scratched
  same overlay.txt expected_text
  has out "scratched: $6"
  reads SN-0047 overlay.txt
  overlay_png
}

# The colours of a PNG, one pixel for each module, against the text.
overlay_png() {
  [[ " ${formats[*]} " = *' png '* ]] || return 0
  run 0 overlay --quiet-zone 0 --scale 1 --force -o overlay.png scratched
  if ! command -v pngtopnm >/dev/null; then return; fi
  { sed 's/  /255 255 255\n/g;s/██/0 0 0\n/g;s/++/214 39 40\n/g;s/--/255 159 28\n/g;s/??/59 111 181\n/g' expected_text; } | xargs -n 3 >colours
  pngtopnm -plain overlay.png | sed 1,3d | xargs -n 3 >pixels
  check "the PNG has other colours" cmp -s pixels colours
}

# Finders, separators, and the alignment lines in row 16 and column 14 of version 5, are patterns; ring 8 is information.
overlay_scratched() {
  overlay_case 1 '9,3 9,12 11,20' '0,0 3,3 7,2 20,22' '' '' 'data modules that differ: 3; information modules: 0; unknown: 0'
  overlay_case 1 '8,2 14,20 10,10' '' '12,4' '1,1 15,15' 'data modules that differ: 1; information modules: 2; unknown: 1'
  overlay_case 1 '' '' '8,4 12,4 12,5' '' 'data modules that differ: 0; information modules: 0; unknown: 3'
  overlay_case 5 '12,12 20,20 8,3' '16,5 17,4 16,14 20,14 20,13 12,0 30,30' '25,18' '16,7' \
    'data modules that differ: 2; information modules: 1; unknown: 1'
  modules rows SN-0047
  edit '0,0 7,7' '0,3' <rows >scratched
  run 0 overlay scratched
  has err 'data modules that differ: 0; information modules: 0; unknown: 0'
  run 0 overlay --format svg scratched
  check "modules of patterns are shown" [ "$(grep -c '<path' out)" = 1 ]
}

# A turned mark is drawn upright; the paths of an SVG name the modules.
overlay_svg() {
  modules rows --mask 0 SN-0047
  edit '9,3 11,20' '12,4' <rows | turn >scratched
  run 0 overlay --quiet-zone 0 -o overlay.svg scratched
  grep '<path' overlay.svg | sed 1d | sed 's/.*d="//;s/".*//' | sort >paths
  printf 'M20 11h1v1h-1z\nM3 9h1v1h-1z\nM4 12h1v1h-1z\n' | sort >expected_paths
  same paths expected_paths
  check "an SVG has other paths" [ "$(grep -c '<path fill="#' overlay.svg)" -ge 3 ]
  reads SN-0047 overlay.svg
}

overlay_refused() {
  modules good SN-0047
  edit "$(echo {9..13},{2..20})" '' <good >bad
  run 1 overlay -o bad.svg bad; has err 'hanxin: bad: refused: 6, '; silent out; leaves_no bad.svg
  run 1 overlay bad; silent out
  run 2 overlay -o none.svg none; has err 'No such file'; leaves_no none.svg
  says 2 'its format is text, svg or png' overlay -o overlay.pbm good; leaves_no overlay.pbm
  says 2 'its format is text, svg or png' overlay --format p4 good
  says 2 'overlay takes one file' overlay
  says 2 'overlay takes one file' overlay good good
  says 2 'overlay has no option --json' overlay --json good
  says 2 'is there already' overlay -o good --format svg good
  run 0 overlay - <good
  full_disk overlay -o full.svg good; leaves_no full.svg
}

test_overlay() {
  if ! command -v pngtopnm >/dev/null; then left_out+=("the colours of a PNG, there is no pngtopnm"); fi
  overlay_clean
  overlay_scratched
  overlay_svg
  overlay_refused
}
