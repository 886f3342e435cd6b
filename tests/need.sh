# Sourced by the tests and the timings: sees that a command is there, and installs Debian's packages for it where that is allowed.
need() { # COMMAND PACKAGE...
    local command=$1
    shift
    command -v "$command" >/dev/null && return
    if [ "$(id -u)" -eq 0 ] && command -v apt-get >/dev/null; then
        apt-get -o DPkg::Lock::Timeout=300 install -y "$@" >/dev/null 2>&1 || { apt-get update >/dev/null 2>&1 && apt-get -o DPkg::Lock::Timeout=300 install -y "$@" >/dev/null 2>&1; }
    fi
    command -v "$command" >/dev/null && return
    echo "$command is needed (Debian's packages: $*)"
    echo "0 passed, 1 failed"
    exit 1
}
