# Sourced: the C compiler of the archive's machine, x86-64, and what runs its programs. On another processor a cross
# compiler and an emulator stand in; what is missing is installed by its Debian name.
need() { # COMMAND PACKAGE..
    command -v "$1" > /dev/null && return
    shift
    { apt-get update && apt-get install -y "$@"; } > /dev/null 2>&1 || { echo "install $*" >&2; return 1; }
}
if [ "$(uname -m)" = x86_64 ]; then
    need gcc gcc libc6-dev
    CC=(gcc)
    RUN=()
else
    need x86_64-linux-gnu-gcc gcc-x86-64-linux-gnu libc6-dev-amd64-cross
    need qemu-x86_64 qemu-user
    CC=(x86_64-linux-gnu-gcc)
    RUN=(qemu-x86_64 -L /usr/x86_64-linux-gnu)
fi
CFLAGS=(-std=c99 -Wall -Wextra -Wpedantic -Werror -O2 -Iinclude)
