# python-deb.sh: the package of python/. deb.sh, whose functions it uses, reads it.
# shellcheck shell=bash disable=SC2154

begin python3-lomdeqash
install -d "$folder/usr/lib/python3/dist-packages/lomdeqash"
install -m 644 python/lomdeqash/*.py python/lomdeqash/py.typed "$folder/usr/lib/python3/dist-packages/lomdeqash"
# What Debian's Python compiles where it is installed, and removes before it goes.
for script in postinst:py3compile prerm:py3clean; do
  tool=${script#*:} script=$folder/DEBIAN/${script%:*}
  printf '#!/bin/sh\nset -e\nif command -v %s >/dev/null; then %s -p python3-lomdeqash; fi\n' "$tool" "$tool" >"$script"
  chmod 755 "$script"
done
finish python3-lomdeqash python "python3 (>= 3.9), libfixed1 (= $version)
Recommends: python3-numpy" 'fixed-point numbers as text: Python 3' \
  "Reads numerals into fixed-point numbers with exact rounding, converts, compares and encloses them, and prints the \
shortest decimal that reads back: single numbers, lists, and arrays of numpy."
