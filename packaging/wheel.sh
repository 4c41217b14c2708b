#!/usr/bin/env bash
# wheel.sh VERSION LIBRARY FOLDER: leaves a wheel of python/ with the shared library inside in a folder. PYTHON names
# the interpreter that builds it; else it is the first of two that has setuptools, wheel and build.
set -eu
cd "$(dirname "$0")/.."
version=$1 library=$2 folder=$3
umask 022
for python in ${PYTHON:-python3 /usr/bin/python3}; do
  if "$python" -c 'import build.__main__, setuptools, wheel' 2>/dev/null; then break; fi
  python=
done
if [ -z "$python" ]; then
  echo 'A wheel is built by a Python with setuptools, wheel and build: name one by PYTHON.' >&2
  exit 1
fi
source=$(mktemp -d) && trap 'rm -rf "$source"' EXIT
cp -r LICENSE-* python/pyproject.toml python/setup.py python/lomdeqash "$source"
find "$source" -name __pycache__ -exec rm -rf {} +
strip --strip-unneeded -o "$source/lomdeqash/libfixed.so.1" "$library"
chmod -R u=rwX,go=rX "$source"
chmod 644 "$source/lomdeqash/libfixed.so.1"
mkdir -p "$folder"
# The times of the files in it: the first that a zip file can say.
export SOURCE_DATE_EPOCH=315532800 LOMDEQASH_VERSION="$version"
"$python" -m build --wheel --no-isolation --outdir "$folder" "$source" >"$source/log" 2>&1 ||
  { cat "$source/log" >&2; exit 1; }
ls "$folder"/lomdeqash-"$version"-*.whl
