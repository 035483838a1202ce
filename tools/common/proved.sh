# Sourced in bash: `proved` is what a proved program of target/bin is run through. The programs are for Linux x86-64;
# there it is empty, and elsewhere an emulator.

proved=()
[ "$(uname -sm)" = 'Linux x86_64' ] || proved=(qemu-x86_64)
