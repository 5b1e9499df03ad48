"""Compiles crate look_page to WebAssembly, for page/build.sh.  proved|unproved LOG WASM"""
import signal
import sys

from checks import kit


def main():
    words = sys.argv[1:]
    if len(words) != 3 or words[0] not in ("proved", "unproved"):
        print(__doc__)
        return 0 if not words else 2
    signal.signal(signal.SIGTERM, lambda *_: sys.exit(1))  # (so that nothing is left in the folder for temporary files)
    try:
        kit.build_page(*words)
    except (kit.Other, kit.Refused, KeyError, OSError) as error:
        print(f"page/build.sh: {error}", file=sys.stderr)
        return 1
    return 0
