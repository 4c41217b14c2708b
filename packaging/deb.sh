#!/usr/bin/env bash
# deb.sh VERSION PROGRAM..: makes four packages below build/deb of what `make build` and `make library` left there: the programs, the
# shared library, the package for Python, and the files that are needed to build against the library. What a package needs is taken from the symbols of its files, by
# dpkg-shlibdeps. `lintian` reads the packages where it is installed, and chroot.sh installs them where there is debootstrap; with
# PACKAGES_ONLY set, neither does.
set -eu
cd "$(dirname "$0")/.."
version=$1
shift
architecture=$(dpkg --print-architecture)
triple=$(dpkg-architecture -q DEB_HOST_MULTIARCH 2>/dev/null || gcc -dumpmachine)
# The day of the version, which CHANGELOG's heading says, is the only time in a package, so that its bytes are the same each time.
day=$(sed -n "s/^## $version, \([0-9-]*\)\$/\1/p" CHANGELOG.md)
SOURCE_DATE_EPOCH=$(date -ud "${day:-1980-01-01}" +%s)
export SOURCE_DATE_EPOCH DPKG_DEB_THREADS_MAX=1
date=$(date -uRd "@$SOURCE_DATE_EPOCH")
umask 022
rm -rf build/deb
mkdir -p build/deb

# page FILE FOLDER: a compressed manual page.
page() { gzip -9n <"$1" >"$2/$(basename "$1").gz"; chmod 644 "$2/$(basename "$1").gz"; }

# begin NAME: the folder of a package, with its copyright and changelog.
begin() {
  folder=build/deb/$1
  install -d "$folder/DEBIAN" "$folder/usr/share/doc/$1"
  install -m 644 packaging/copyright "$folder/usr/share/doc/$1/copyright"
  printf 'lomdeqash (%s) unstable; urgency=low\n\n  * Packages of the programs and of the library for C.\n\n -- Lomdeqash <maintainers@lomdeqash.example>  %s\n' "$version" "$date" |
    gzip -9n >"$folder/usr/share/doc/$1/changelog.gz"
  chmod 644 "$folder/usr/share/doc/$1/changelog.gz"
}

# needed FILE..: the packages that the symbols of these programs and libraries are from, with the versions that have them.
needed() {
  mkdir -p build/deb/symbols/debian
  printf 'Source: lomdeqash\n\nPackage: lomdeqash\nArchitecture: any\n' >build/deb/symbols/debian/control
  (cd build/deb/symbols && dpkg-shlibdeps -O --ignore-missing-info "${@/#/../../../}" 2>/dev/null) | sed -n 's/^shlibs:Depends=//p'
}

# finish NAME SECTION DEPENDS SHORT LONG: its control file, and the package.
finish() {
  local size
  size=$(find "$folder" -path "$folder/DEBIAN" -prune -o -type f -printf '%s\n' -o -printf '1024\n' | awk '{ kib += int(($1 + 1023) / 1024) } END { print kib }')
  cat >"$folder/DEBIAN/control" <<END
Package: $1
Source: lomdeqash
Version: $version
Section: $2
Priority: optional
Architecture: $architecture
Maintainer: Lomdeqash <maintainers@lomdeqash.example>
Depends: $3
Installed-Size: $size
Description: $4
$(echo "$5" | fold -s -w 75 | sed 's/^/ /; s/ *$//')
END
  (cd "$folder" && find usr -type f -print0 | sort -z | xargs -0 md5sum >DEBIAN/md5sums)
  chmod 644 "$folder/DEBIAN/control" "$folder/DEBIAN/md5sums"
  dpkg-deb --root-owner-group --build "$folder" "build/deb/${1}_${version}_$architecture.deb" >/dev/null
}

begin lomdeqash
install -d "$folder/usr/bin" "$folder/usr/share/man/man1"
for program in "$@"; do
  install -m 755 "build/$program" "$folder/usr/bin/$program"
  strip --remove-section=.comment --remove-section=.note "$folder/usr/bin/$program"
  if [ -f "completion/$program.bash" ]; then
    install -D -m 644 "completion/$program.bash" "$folder/usr/share/bash-completion/completions/$program"
    install -D -m 644 "completion/_$program" "$folder/usr/share/zsh/vendor-completions/_$program"
    install -D -m 644 "completion/$program.fish" "$folder/usr/share/fish/vendor_completions.d/$program.fish"
  fi
  [ ! -f "man/$program.1" ] || page "man/$program.1" "$folder/usr/share/man/man1"
done
finish lomdeqash math "$(needed "$folder"/usr/bin/*)" 'fixed-point numbers as text' \
  'Programs that read numerals into fixed-point numbers with exact rounding, convert them between formats with a verdict on overflow, and print the shortest decimal that reads back.'

begin libfixed1
install -d "$folder/usr/lib/$triple"
install -m 644 build/lib/libfixed.so.1 "$folder/usr/lib/$triple/libfixed.so.1"
strip --strip-unneeded --remove-section=.comment --remove-section=.note "$folder/usr/lib/$triple/libfixed.so.1"
echo 'activate-noawait ldconfig' >"$folder/DEBIAN/triggers"
echo "libfixed 1 libfixed1 (>= $version)" >"$folder/DEBIAN/shlibs"
chmod 644 "$folder/DEBIAN/triggers" "$folder/DEBIAN/shlibs"
finish libfixed1 libs "$(needed "$folder/usr/lib/$triple/libfixed.so.1")" 'fixed-point numbers as text: shared library' \
  'Reads numerals into fixed-point numbers with exact rounding, converts them between formats with a verdict on overflow, and prints the shortest decimal that reads back.'

. packaging/python-deb.sh

begin libfixed-dev
install -d "$folder/usr/include" "$folder/usr/lib/$triple/pkgconfig" "$folder/usr/share/man/man3"
install -m 644 include/fixed.h include/fixed.hpp "$folder/usr/include"
for file in rust/Cargo.toml rust/build.rs rust/src/*.rs; do install -D -m 644 "$file" "$folder/usr/share/lomdeqash/$file"; done
install -m 644 build/lib/libfixed.a "$folder/usr/lib/$triple/libfixed.a"
strip --strip-debug --remove-section=.comment "$folder/usr/lib/$triple/libfixed.a"
ln -s libfixed.so.1 "$folder/usr/lib/$triple/libfixed.so"
sed -e 's|@PREFIX@|/usr|' -e "s|@VERSION@|$version|" -e "s|^libdir=.*|libdir=\${prefix}/lib/$triple|" packaging/fixed.pc.in >"$folder/usr/lib/$triple/pkgconfig/fixed.pc"
chmod 644 "$folder/usr/lib/$triple/pkgconfig/fixed.pc"
page man/fixed.3 "$folder/usr/share/man/man3"
for call in $(sed -n 's/^uint32_t \(fixed_[a-z_]*\)(.*/\1/p' include/fixed.h); do
  ln -s fixed.3.gz "$folder/usr/share/man/man3/$call.3.gz"
done
finish libfixed-dev libdevel "libfixed1 (= $version)" 'fixed-point numbers as text: headers and archive' \
  'What is needed to build a program against libfixed: the headers for C and C++, the archive, the sources of a crate for Rust, the manual pages of the calls, and a file for pkg-config.'

rm -rf build/deb/symbols
[ -z "${PACKAGES_ONLY:-}" ] || exit 0
for package in build/deb/*.deb; do
  echo "$package: $(stat -c %s "$package") bytes"
  if command -v lintian >/dev/null 2>&1; then lintian --allow-root --fail-on error --suppress-tags no-symbols-control-file "$package"; else echo "lintian is not on this machine"; fi
done
packaging/chroot.sh build/deb/*.deb
