# shellcheck shell=bash disable=SC2034,SC2154 # program/test reads these files one after another; they share variables
# Help, and output that fails.

output_help() {
  local verb option
  for option in --help -h; do
    run 0 $option; has out 'usage: hanxin VERB'; silent err
    for verb in write read batch overlay demo; do
      run 0 $verb $option; has out "usage: hanxin $verb"; has out 'Exit status: 0 '; silent err
      run 0 $verb something $option; has out "usage: hanxin $verb"
    done
  done
  run 0 --version; has out 'built in'
  check "the version is another than the header's" grep -q "^hanxin $(sed -n 's/^.define HX_LIBRARY_VERSION "\([0-9.]*\)"$/\1/p' \
    "${here:?}/../include/han_xin.h");" out
  run 2; has err 'usage: hanxin VERB'; silent out
  says 2 "there is no verb 'scan'" scan
  says 2 "there is no verb '--wrong'" --wrong
}

# Every way to print: each must end with 2 and words when standard output cannot be written.
ways=('write SN-1' 'write --format svg SN-1' 'write -o FILE SN-1' 'read mark.pbm' 'read --json mark.pbm' 'read --raw mark.pbm'
  'read --show mark.pbm' 'overlay mark.pbm' 'overlay -o FILE mark.pbm' 'demo SN-1' 'demo --write - SN-1' 'batch -d FOLDER list' '--help'
  '--version' 'write --help')

failing() {   # failing WORDS ARGUMENT ..: a way that was run has ended with 2 and said why
  check "ended with $status, not 2" [ "$status" = 2 ]
  has err "$1"
  rm -rf mark.svg folder
}

output_fails() {
  local way arguments
  run 0 write -o mark.pbm SN-1
  printf 'SN-1\n' >list
  for way in "${ways[@]}"; do
    way=${way/FILE/mark.svg}; way=${way/FOLDER/folder}
    read -ra arguments <<<"$way"
    : >out
    last="$way >/dev/full"; status=0; "$hanxin" "${arguments[@]}" >/dev/full 2>err || status=$?; failing 'No space left on device'
    last="$way >&-"; status=0; "$hanxin" "${arguments[@]}" >&- 2>err || status=$?; failing 'Bad file descriptor'
    last="$way | true"; status=0
    { sleep 0.1; "$hanxin" "${arguments[@]}"; } 2>err | true || status=${PIPESTATUS[0]}
    failing 'Broken pipe'
  done
  last='write | head -c 1'; status=0
  "$hanxin" write --format pbm --version 84 SN-1 2>err | head -c 1 >out || status=${PIPESTATUS[0]}
  failing 'Broken pipe'
}

# What is printed must not go into a file that takes the place of closed standard error.
output_closed() {
  printf 'SN-1\n\nSN-3\n' >list
  last='batch 2>&-'; status=0
  "$hanxin" batch --format pbm -d closed list >out 2>&- || status=$?
  check "ended with $status, not 1" [ $status = 1 ]
  check "the manifest has something else" [ "$(cut -d , -f 1 closed/manifest.csv | tr '\n' ' ')" = 'line 1 3 ' ]
  status=0; "$hanxin" batch --format pbm -d all-closed list <&- >&- 2>&- || status=$?
  check "ended with $status, not 2" [ $status = 2 ]
  check "the manifest has something else" [ "$(cut -d , -f 1 all-closed/manifest.csv | tr '\n' ' ')" = 'line 1 3 ' ]
  run 0 read closed/*.pbm all-closed/*.pbm
}

test_output() {
  output_help
  output_fails
  output_closed
}
