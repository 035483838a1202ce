# Sourced in bash, at the top of the repository: proving and building with the Rattle kit, whose command `rt` works in a
# crate's folder and writes to the folder out there. What is built is put where the other commands look for it: a program
# to target/bin/NAME, a static library to target/staticlib, and to target/log/NAME.say what `rt` said of the crate.

# stands_on NAME: the crates of the repository that a crate stands on, and the crate itself, each after those it needs.
stands_on() {
  sed 's/#.*//; s/:/ : /' crates.txt | awk -v top="$1" '
    NF { for (i = 2; $i != ":"; i++); for (i++; i <= NF; i++) needs[$1] = needs[$1] " " $i; listed[$1] = 1 }
    function visit(name, i, words, count) {
      if (!(name in listed) || name in met) return
      met[name] = 1
      count = split(needs[name], words, " ")
      for (i = 1; i <= count; i++) visit(words[i])
      print name
    }
    END { visit(top) }'
}

# is_static NAME: whether a crate is a static library; archive NAME: where it is put. Its name is the crate's without
# the `_c` that the crates for C end with.
is_static() { grep -qE "^$1 ([a-z0-9_=]+ )*staticlib" crates.txt; }
archive() { printf 'target/staticlib/lib%s.a\n' "${1%_c}"; }

# stamp_of NAME: the file in which `rt` keeps what a crate was last built from.
stamp_of() {
  if [ -f "crates/$1/src/main.rt" ]; then printf 'crates/%s/out/%s.stamp\n' "$1" "$1"; else printf 'crates/%s/out/rlib/stamp\n' "$1"; fi
}

# prove_one NAME: proves a crate where it changed, over those below, and puts what is built in its place. What `rt` said
# is kept until it proves the crate again.
prove_one() {
  local name=$1 said=target/log/$1
  mkdir -p target/log target/bin target/staticlib
  if [ -f "crates/$name/src/main.rt" ]; then
    (cd "crates/$name" && rt run </dev/null) >/dev/null 2>"$said.new" && install "crates/$name/out/$name" target/bin/
  elif is_static "$name"; then
    (cd "crates/$name" && rt lib) >"$said.new" 2>&1 && install -m 644 "crates/$name/out/lib$name.a" "$(archive "$name")"
  else
    (cd "crates/$name" && rt lib) >"$said.new" 2>&1
  fi || return
  if grep -q '^logic=proved ' "$said.new"; then
    mv "$said.new" "$said.say"
    cp "$(stamp_of "$name")" "$said.stamp" 2>/dev/null || rm -f "$said.stamp"
  fi
  rm -f "$said.new"
}

# prove NAME: proves a crate and those below it, and says on standard error how each ended.
prove() {
  local name
  command -v rt >/dev/null || { echo "the Rattle kit's command rt is not on the PATH" >&2; return 2; }
  [ -n "$(stands_on "$1")" ] || { echo "no crate $1 in crates.txt" >&2; return 2; }
  for name in $(stands_on "$1"); do
    prove_one "$name" || {
      tail -n 20 "target/log/$name.new" >&2
      echo "$name is not proved; target/log/$name.new has what rt said" >&2
      return 1
    }
    echo "$name: proved" >&2
  done
}

# functions_of NAME: how many functions of a proved crate are proved, by what `rt` said when it proved it; where that
# was not kept, by a check over what the proof left.
functions_of() {
  local said=target/log/$1
  if ! cmp -s "$(stamp_of "$1")" "$said.stamp"; then
    (cd "crates/$1" && rt check) >"$said.say" 2>&1 || return
    cp "$(stamp_of "$1")" "$said.stamp"
  fi
  sed -n 's/^logic=proved functions=\([0-9]*\).*/\1/p' "$said.say" | tail -n 1
}
