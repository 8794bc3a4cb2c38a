# Sourced by sheet.sh and .ci/run.

# need PACKAGE COMMAND..: installs Debian's PACKAGE where COMMAND fails; first from what is on the machine, then from the network.
need() {
    package=$1
    shift
    "$@" > /dev/null 2>&1 && return
    echo "installing $package" >&2
    sudo=
    [ "$(id -u)" = 0 ] || sudo=sudo
    $sudo apt-get install -y -q --no-download "$package" > /dev/null 2>&1 ||
        $sudo apt-get install -y -q "$package" > /dev/null 2>&1 ||
        { $sudo apt-get update -q > /dev/null && $sudo apt-get install -y -q "$package" > /dev/null; } || return
    "$@" > /dev/null 2>&1
}

# cargo 1.80 or newer, and its rustfmt; Debian 12 has them as cargo-web and rustfmt-web.
need_cargo() {
    need cargo is_new cargo 1.80 || need cargo-web is_new cargo 1.80
}

need_rustfmt() {
    need rustfmt is_new rustfmt 1.7 || need rustfmt-web is_new rustfmt 1.7
}

# is_new COMMAND VERSION: whether the second word of COMMAND --version is VERSION or later.
is_new() {
    version=$("$1" --version | cut -d ' ' -f 2) && [ "$(printf '%s\n' "$2" "$version" | sort -V | head -n 1)" = "$2" ]
}
