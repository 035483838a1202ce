# Sourced by what compiles against the proved static library: how a program for Linux x86-64, the library's platform, is
# compiled and run here. It sets the arrays `rustc`, `rustdoc`, `cc` and `run`, or says what is missing and ends with
# status 2. On Linux x86-64 these are rustc, rustdoc and gcc, and `run` is empty. Elsewhere they are a rustc that has
# that platform's standard library, a cross compiler and an emulator, which Debian has as packages.

platform=x86_64-unknown-linux-gnu
packages='rustc-web libstd-rust-web-dev:amd64 gcc-x86-64-linux-gnu libc6-dev-amd64-cross qemu-user'

# missing TOOL: says so, and how to have it.
missing() {
  printf '%s is missing: it compiles or runs programs for Linux x86-64\n' "$1" >&2
  [ "$(uname -m)" = x86_64 ] || printf 'on Debian: dpkg --add-architecture amd64; apt-get update; apt-get install %s\n' "$packages" >&2
  exit 2
}

# foreign_rustc: the first rustc of the PATH that has the platform's standard library.
foreign_rustc() {
  local each
  for each in ${RUSTC:-} $(type -ap rustc); do
    [ -d "$("$each" --target "$platform" --print target-libdir 2>/dev/null)" ] && echo "$each" && return
  done
  return 1
}

if [ "$(uname -sm)" = 'Linux x86_64' ]; then
  rustc=("${RUSTC:-rustc}") rustdoc=("${RUSTDOC:-rustdoc}") cc=("${CC:-gcc}") run=()
else
  found=$(foreign_rustc) || missing "a rustc with the standard library of $platform"
  rustc=("$found" --target "$platform" -C linker=x86_64-linux-gnu-gcc)
  rustdoc=("$(dirname "$found")/rustdoc" --target "$platform" -C linker=x86_64-linux-gnu-gcc --test-runtool qemu-x86_64)
  cc=(x86_64-linux-gnu-gcc) run=(qemu-x86_64)
fi
for tool in "${rustc[0]}" "${rustdoc[0]}" "${cc[0]}" ${run[0]+"${run[0]}"}; do
  command -v "$tool" >/dev/null || missing "$tool"
done
