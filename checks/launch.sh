# ./sts and ./look read this file. They have set `root`, the top of the repository, `name`, the name of the program,
# and `crate`, the crate that it is built of. It starts the program, after it was built if need be. It calls no other
# program on the way where nothing has changed, so that a call takes a few milliseconds.
set -eu
program=$root/crates/$crate/out/$crate
unproved=$program.unproved

# Returns whether a source or a definition is newer than this program. A proof changes no program, so proofs don't count.
# The build writes PROGRAM.sources, a test of the files that the program is built of, and dates it a second after the
# program. Without it, or if something else has built the program since, all files are tested.
is_stale() {
  [ -x "$1" ] || return 0
  if [ "$1.sources" -nt "$1" ]; then
    . "$1.sources"
    # (the test has paths from the top, which the shell reads faster; most calls are made there)
    if [ "$root" = . ]; then is_older; else (cd "$root" && is_older); fi
    return
  fi
  for it in "$root"/crates.txt "$root"/crates/*/src "$root"/crates/*/src/* "$root"/crates/*/src/*/* \
    "$root"/crates/*/specs "$root"/crates/*/specs/*; do
    [ ! "$it" -nt "$1" ] || return 0
  done
  return 1
}

# Returns whether a call asks for help.
asks_for_help() {
  case "$# ${1-} ${2-}" in
    '1 -h ' | '1 --help ' | '1 help ' | '2 help '* | '2 '*' -h' | '2 '*' --help') return 0 ;;
  esac
  return 1
}

# Answers a call that no build helps, with the status and the output of the program, and ends; it returns otherwise.
answer_before_a_build() {
  status=0
  python3 "$root/checks" answer "$name" "$@" || status=$?
  [ $status = 75 ] || exit $status
}

case ${1-} in
  --unproved)
    shift
    case ${1-} in
      -V | --version)
        printf '%s ' "$name"
        exec sed 's/^proved with/built without proofs, by/' "$root/VERSION"
        ;;
    esac
    if is_stale "$unproved"; then
      answer_before_a_build "$@"
      exec python3 "$root/checks" unproved "$name" "$unproved" "$@"
    fi
    echo "$name: not proved: this program was built without its proofs" >&2
    if [ -f "$unproved.slow" ]; then
      read -r why < "$unproved.slow" || :
      echo "$name: slow: the fast build doesn't fit this kit: $why" >&2
    fi
    exec "$unproved" "$@"
    ;;
  --version | -V)
    printf '%s ' "$name"
    exec cat "$root/VERSION"
    ;;
esac
# (a call for help starts no proof, even if a source is newer)
if is_stale "$program" && ! { [ -x "$program" ] && asks_for_help "$@"; }; then
  answer_before_a_build "$@"
  exec python3 "$root/checks" build "$program" "$@"
fi
exec "$program" "$@"
