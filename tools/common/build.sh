# Sourced by the commands of tools/: where things stand, and how a Rust program is built below target/.

here=$(cd "$(dirname "${BASH_SOURCE[0]}")" && pwd)
root=$(cd "$here/../.." && pwd)
built=$root/target/tools

# say MESSAGE: to standard error, and end with status 2.
fail() {
  printf '%s\n' "$*" >&2
  exit 2
}

# source_folder [DIR]: the absolute folder of the ported Rust source, which must hold its three files.
source_folder() {
  local given=${1:-$root/../shared/docs/src} folder file
  folder=$(cd "$given" 2>/dev/null && pwd) || fail "no such folder with the Rust source: $given (give it with --source DIR or RUST_SOURCE)"
  for file in frequency_sketch deque timer_wheel; do
    [ -r "$folder/src/common/$file.rs" ] || fail "the Rust source is not complete: $folder/src/common/$file.rs is missing"
  done
  printf '%s\n' "$folder"
}

# build NAME MAIN.rs STAMP OPTION..: compiles tools/MAIN.rs to target/tools/NAME when it is missing, when a Rust file of
# tools/ or of the source is newer, or when STAMP (what else the build depends on) is another than last time.
build() {
  local name=$1 main=$2 stamp=$3 stale log
  shift 3
  command -v rustc >/dev/null || fail "rustc is not on the PATH: it is needed to build tools/$main"
  mkdir -p "$built" || fail "cannot make $built"
  stale=yes
  if [ -x "$built/$name" ] && [ "$(cat "$built/$name.stamp" 2>/dev/null)" = "$stamp $*" ]; then
    stale=$(find "$root/tools" ${stamp:+"$stamp/src"} -name '*.rs' -newer "$built/$name" -print -quit)
  fi
  [ -n "$stale" ] || return 0
  log=$built/$name.$$.log
  if ! RUST_SOURCE=$stamp rustc --edition 2021 --crate-name "$name" -O "$@" -o "$built/$name.$$" "$root/tools/$main" 2>"$log"; then
    cat "$log" >&2
    rm -f "$built/$name.$$"
    fail "tools/$main does not compile; the messages stand above and in $log"
  fi
  rm -f "$log"
  mv "$built/$name.$$" "$built/$name" && printf '%s\n' "$stamp $*" >"$built/$name.stamp"
}

# build_oracle FOLDER: the Rust behind its stand-ins, with overflow checks, debug assertions and the test build's
# events.
build_oracle() {
  build oracle oracle/main.rs "$1" -C overflow-checks=on -C debug-assertions=on --cfg test -A explicit_builtin_cfgs_in_flags
}
