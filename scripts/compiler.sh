# compiler.sh - for scripts that build C programs with the kernel's library; they set `root`, the way to the project's folder, and
# read this file. The library is x86-64 code. It sets
#
#   cc     the compiler: $CC or gcc, or on a machine that is not x86-64 Debian's cross compiler (gcc-x86-64-linux-gnu)
#   link   its flags to link
#   run    what runs a program: nothing, or the kit's emulator
#   lib    the library; `make_library` proves the kernel, but for what is proved already, and writes it
machine=$(uname -m)
if [ "$machine" = x86_64 ]; then
    cc=${CC:-gcc} link="" run=""
else
    kit=$(dirname "$(dirname "$(readlink -f "$(command -v rt)")")")
    cc=x86_64-linux-gnu-gcc link=-static run="$kit/on/$machine/toolchain/bin/qemu-x86_64"
fi
lib=$root/crates/phlernsap/out/libphlernsap.a
make_library() { "$root/scripts/prove" library phlernsap; }
