#!/usr/bin/env bash
# Builds the page: proves crate look_page, compiles it to WebAssembly, and writes page/out/index.html, a single file.
#   page/build.sh
#   page/build.sh --unproved    skips the proofs, and takes two minutes
# checks/kit.py says how it is compiled.
set -euo pipefail
page=$(cd "$(dirname "${BASH_SOURCE[0]}")" && pwd)
case ${1-} in
  '') how=proved ;;
  --unproved) how=unproved ;;
  *)
    echo "usage: page/build.sh [--unproved]" >&2
    exit 2
    ;;
esac
mkdir -p "$page/out"
python3 "$page/../checks" page $how "$page/out/build.log" "$page/out/page.wasm"
python3 "$page/pack.py" "$page/out/page.wasm" "$page/out/index.html"
[ $how = proved ] || echo "page/build.sh: not proved: this page was built without its proofs" >&2
