# Sourced by what links the proved static library, in bash, at the top of the repository: `library` is its path, and
# `build_library` makes it where it is missing or older than a source.

library=target/staticlib/libjuopmorin.a

build_library() {
  if [ -f "$library" ] &&
    [ -z "$(find crates.txt crates -name out -prune -o -newer "$library" -type f -print -quit)" ]; then
    return
  fi
  command -v rt >/dev/null || { echo "rt is not on the PATH: the Rattle kit proves and builds $library" >&2; exit 2; }
  echo 'proving and building the static library (tools/prove juopmorin; from nothing some ten minutes on two cores) ..'
  mkdir -p target
  if ! tools/prove juopmorin >target/staticlib.log 2>&1; then
    tail -5 target/staticlib.log >&2
    echo 'tools/prove juopmorin failed; target/staticlib.log has what it said' >&2
    exit 1
  fi
}
