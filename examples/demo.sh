#!/bin/sh
# Shows a few commands of `fixed`, which is on the path, each with what it answers.
cd "$(dirname "$0")" || exit 1

# A status of 1 says that some line was refused.
show() {
  printf '\n$ %s\n' "$1"
  sh -c "$1" </dev/null
  test $? -le 1 || exit 1
}

show 'fixed show I16F16 3.14159 -1e-3'
show 'fixed bits I16F16 0xfffc0000'
show 'fixed format U8F8'
show "printf '3.14159\\nabc\\n' | fixed convert I16F16 I8F8 --print all"
show 'fixed column celsius I16F16 --header <sensor.csv'
show 'fixed column amount D2 --header --mode ties-away --into rounded <tariff.csv'
