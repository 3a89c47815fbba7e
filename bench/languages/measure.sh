#!/usr/bin/env bash
# The packages for Python and JavaScript, us a block or burst, with the mark of each: the least of many rounds, in turns. Python's package
# is built and installed in a scratch folder, so that its loops are in C; threads need an idle machine. Needs numpy, pip and node.
set -eu
here=$(cd "$(dirname "${BASH_SOURCE[0]}")" && pwd)
top=$(cd "$here/../.." && pwd)
cd "$top"
. checks/common.sh
find_library >/dev/null 2>&1
work=$(mktemp -d)
trap 'rm -rf "$work"' EXIT

for python in python3 /usr/bin/python3; do
  "$python" -c 'import numpy, pip, setuptools, wheel' 2>/dev/null && break
done
mkdir "$work/bindings"
cp -r bindings/python bindings/c "$work/bindings"
cp LICENSE "$work"
UM_SO="$PWD/$shared" "$python" -m pip install -q --no-build-isolation --no-deps --no-index --disable-pip-version-check \
  --root-user-action=ignore --target "$work/site" "$work/bindings/python"
PYTHONPATH="$work/site" "$python" "$here/python.py"
node "$here/js.mjs" "${UM_WASM:-dist/wasm/um.wasm}"
