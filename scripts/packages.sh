# For scripts that need a Debian package: sourced behind scripts/archive.sh. Logs stand in target.

# provide PACKAGE COMMAND...: whether the command succeeds; where it does not, after installing the Debian package. Says why it cannot.
provide() {
    local package=$1 log=target/apt-$1.log
    shift
    "$@" >/dev/null 2>&1 && return
    say "installing the Debian package $package"
    mkdir -p target
    if ! install_package "$package" >"$log" 2>&1; then
        say "the Debian package $package cannot be installed: $(tail -n 1 "$log")"
        return 1
    fi
    "$@" >/dev/null 2>&1 && return
    say "the Debian package $package is installed, but this fails: $*"
    return 1
}

# install_package PACKAGE: one at a time, since tests run side by side.
install_package() {
    (
        flock 9
        apt-get update -q && DEBIAN_FRONTEND=noninteractive apt-get install -q -y "$1"
    ) 9>target/apt.lock
}
