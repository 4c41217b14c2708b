#!/usr/bin/env bash
# chroot.sh PACKAGE..: installs packages in a new Debian of debootstrap, runs what they bring, and removes them again. SUITE
# and MIRROR say which Debian and from where. Where there is no debootstrap, or who calls is not root, it says so and does
# nothing.
set -eu
cd "$(dirname "$0")/.."
if ! command -v debootstrap >/dev/null || [ "$(id -u)" -ne 0 ]; then
  echo 'debootstrap is not on this machine, or is only for root: the packages were not installed in a chroot'
  exit 0
fi
suite=${SUITE:-$(. /etc/os-release && echo "${VERSION_CODENAME:-stable}")}
room=$(mktemp -d) && trap 'rm -rf "$room"' EXIT
root=$room/root
debootstrap --variant=minbase --include=python3,gcc,libc6-dev,pkg-config "$suite" "$root" ${MIRROR:+"$MIRROR"} \
  >"$room/log" 2>&1 || { tail -n 5 "$room/log" >&2; exit 1; }
mkdir "$root/packages"
cp "$@" examples/c/example.c examples/c/edges.c examples/python/fixed.py "$root/packages"
cat >"$root/packages/try" <<'END'
set -eu
cd /packages
names=$(for package in *.deb; do dpkg-deb --field "$package" Package; done)
dpkg --install ./*.deb >/dev/null
dpkg --audit
dpkg --verify
fixed --version
[ "$(fixed show I16F16 3.14159 | grep -c 3.14159)" -gt 0 ]
[ "$(echo '10 U4F4 U8F0 checked 2.99' | fixed_tool)" = '3 3 fits' ]
gcc -O1 example.c $(pkg-config --cflags --libs fixed) -o shared
gcc -O1 example.c -l:libfixed.a -o static
[ "$(./shared)" = "$(./static)" ]
readelf -d shared | grep -q libfixed.so.1
if readelf -d static | grep -q libfixed; then exit 1; fi
test -f /usr/include/fixed.hpp -a -f /usr/share/lomdeqash/rust/Cargo.toml
gcc -O1 edges.c -lfixed -o edges
./edges 2000 | tail -n 1
python3 -c "import lomdeqash; f = lomdeqash.Format('I1F15'); print(lomdeqash.__file__, f.text(f.read(0.3333)))"
LIBFIXED=libfixed.so.1 python3 fixed.py
dpkg --purge $names >/dev/null
if [ -e /usr/bin/fixed ] || [ -e /usr/include/fixed.hpp ] || [ -e /usr/share/lomdeqash ] || [ -e /usr/lib/python3/dist-packages/lomdeqash ]; then
  echo 'something was left behind' >&2
  exit 1
fi
END
chroot "$root" env PATH=/usr/sbin:/usr/bin:/sbin:/bin HOME=/ sh /packages/try
echo "installed in a chroot of $suite, run, and removed"
