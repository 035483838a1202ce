# Sourced in bash, at the top of the repository: `try_trace PROGRAM TRACE ANSWERS` runs a trace program on a trace with
# no proof, compiled with checks (`rt try`), and holds what it writes to the answers.
try_trace() {
  local trace=$PWD/$2 said
  said=$(mktemp)
  (cd "crates/$1" && rt try <"$trace") >"$said" && diff "$said" "$3"
  set -- $?
  rm -f "$said"
  return "$1"
}
