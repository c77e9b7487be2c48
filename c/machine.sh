# shellcheck shell=bash
# What the scripts have to know of the machine. It is sourced.

# The library is compiled for x86-64.
native() {
    [ "$(uname -m)" = x86_64 ]
}

# Brings what the machine knows of Debian's packages up to date. Without root it is taken as it is.
know_packages() { # PACKAGE..
    [ "$(id -u)" -eq 0 ] || return 0
    case "$*" in *:amd64*) native || dpkg --add-architecture amd64 ;; esac
    apt-get update -qq
}

# Of 'one|other' the first that this Debian has.
names() { # PACKAGE..
    local wanted
    for wanted; do
        if apt-cache show "${wanted%%|*}" >/dev/null 2>&1; then echo "${wanted%%|*}"; else echo "${wanted##*|}"; fi
    done
}

# Installs Debian's packages; where that would remove another, it stops instead.
debian() { # PACKAGE..
    if [ "$(id -u)" -ne 0 ]; then
        echo "needs Debian's packages $*; install them as root"
        exit 2
    fi
    know_packages "$@"
    # shellcheck disable=SC2046 # one word for each
    DEBIAN_FRONTEND=noninteractive apt-get install -y -qq --no-install-recommends --no-remove $(names "$@")
} >&2

# Fetches Debian's packages and unpacks them in a folder that is there.
unpack() { # FOLDER PACKAGE..
    (
        cd -- "$1" || exit
        shift
        apt-get download -qq -o APT::Sandbox::User=root "$@" || exit
        for package in *.deb; do dpkg -x "$package" . || exit; done
        rm -f -- *.deb
    )
} >&2

# Unpacks Debian's packages in a new folder, with those that they lean on and the machine lacks. So nothing is installed, and what a
# machine has of another version stays.
beside() { # FOLDER PACKAGE..
    local folder=$1 new
    shift
    know_packages "$@"
    mkdir -p "${folder%/*}"
    new=$(mktemp -d "$folder.XXXXXX")
    # shellcheck disable=SC2046 # one word for each
    if unpack "$new" $(apt-get -s install --no-install-recommends $(names "$@") | awk '$1 == "Inst" { print $2 }'); then
        mv -T "$new" "$folder"
    else
        rm -rf -- "$new"
        return 1
    fi
} >&2

# Where libdesk_c.a is, for a caller whose folder is still the current one; $1 is the project's folder.
library_folder() {
    CDPATH='' cd -- "${JIEHKAVON_LIB_DIR:-$1/crates/desk_c/out}" && pwd
}
