# Unpacks packages of another Debian release: to be sourced. Nothing is installed.

# Says which release, and below which folder the packages and what apt knows of them are kept.
use_release() {
    release=$1
    room=$2
    mkdir -p "$room/lists/partial" "$room/archives/partial" "$room/packages"
    : > "$room/status"
    keys=/usr/share/keyrings/debian-archive-keyring.gpg
    echo "deb [signed-by=$keys] http://deb.debian.org/debian $release main" > "$room/sources.list"
    apt apt-get update
}

# A command of apt's that knows that release alone, and nothing of what is installed.
apt() {
    command=$1
    shift
    "$command" -qq -o Dir::Etc::SourceList="$room/sources.list" -o Dir::Etc::SourceParts=/dev/null \
        -o Dir::State::Lists="$room/lists" -o Dir::State::Status="$room/status" \
        -o Dir::Cache="$room" -o APT::Sandbox::User=root "$@"
}

# Unpacks these packages into the folder `tree` there.
unpack() {
    (cd "$room/packages" && apt apt-get download "$@")
    for package in "$room"/packages/*.deb; do dpkg-deb -x "$package" "$room/tree"; done
}

# Unpacks these packages of crates, and those of the crates that they depend on.
unpack_crates() {
    crates=$(apt apt-cache depends --recurse --no-recommends --no-suggests --no-conflicts \
        --no-breaks --no-replaces --no-enhances "$@" | grep -E '^librust-.*-dev$' | sort -u)
    # shellcheck disable=SC2086
    unpack $crates
}

# Has cargo take crates from a folder in place of the registry, with a home that is given.
source_from() {
    mkdir -p "$1"
    cat > "$1/config.toml" <<END
[source.crates-io]
replace-with = "debian"
[source.debian]
directory = "$2"
[net]
offline = true
END
    export CARGO_HOME="$1"
}
