# Sourced by the parts of the tests that run x86-64 programs. Sets CC_X86 (a C compiler for x86-64) and RUN_X86 (a command that runs
# its programs: nothing on x86-64, an emulator elsewhere), and installs them from Debian's packages where they are missing.

# from_debian PACKAGE..: installs packages; parts of the tests that run at the same time take turns
from_debian() {
    local log
    log=$(mktemp)
    (flock 9 && apt-get update -qq && DEBIAN_FRONTEND=noninteractive apt-get install -y -qq "$@") 9>"${TMPDIR:-/tmp}/cinorbis-install.lock" \
        >"$log" 2>&1 || tail -n 5 "$log"
    rm -f "$log"
}

# install_missing COMMAND PACKAGE
install_missing() {
    command -v "$1" >/dev/null && return 0
    echo "installing $2 for $1"
    from_debian "$2"
    command -v "$1" >/dev/null
}

install_missing gcc gcc || return 1
install_missing g++ g++ || return 1
install_missing python3 python3 || return 1
if [ "$(uname -m)" = x86_64 ]; then
    CC_X86=gcc RUN_X86=
else
    install_missing x86_64-linux-gnu-gcc gcc-x86-64-linux-gnu || return 1
    install_missing qemu-x86_64 qemu-user || return 1
    CC_X86=x86_64-linux-gnu-gcc RUN_X86=qemu-x86_64
fi
