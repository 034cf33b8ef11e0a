# Sourced by the checks in bash that lock files and folders by their modes: `unprivileged COMMAND..` runs a command that these
# hold back, also if root runs the check.
unprivileged() {
    if [ "$(id -u)" == 0 ]; then
        setpriv --bounding-set=-dac_override,-dac_read_search --inh-caps=-dac_override,-dac_read_search "$@"
    else
        "$@"
    fi
}

# Returns whether `unprivileged` can; if not, prints what a step leaves out.
modes_count() { # modes_count STEP PART
    [ "$(id -u)" != 0 ] || command -v setpriv >/dev/null || {
        echo "$1: not tried: $2: there is no setpriv (Debian package util-linux)"
        false
    }
}
