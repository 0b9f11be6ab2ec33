# Has cargo at hand for the other Rust tools. To be sourced at the top of the repository.
#
# If cargo's registry can't be reached it takes Debian's packaged crates in its place, and installs
# those that are missing.

# What the tests need from Debian, if the registry can't be reached.
packages='librust-async-executor-dev librust-futures-core-dev librust-futures-lite-dev
librust-slab-dev librust-tokio-dev'
# What loom needs, which the models are made with.
packages="$packages librust-generator-dev librust-scoped-tls-dev librust-tracing-subscriber-dev"
debian=/usr/share/cargo/registry
. tools/debian_release.sh
target=${CARGO_TARGET_DIR:-$PWD/rust/target}
export CARGO_TARGET_DIR="$target"

step() {
    echo "rust: $*"
}

install_missing() {
    missing=
    for package in $packages; do
        dpkg-query -W -f='${Status}' "$package" 2> /dev/null | grep -q 'ok installed' \
            || missing="$missing $package"
    done
    [ -z "$missing" ] && return
    step "Debian's packages$missing"
    DEBIAN_FRONTEND=noninteractive
    export DEBIAN_FRONTEND
    apt-get update -qq
    # shellcheck disable=SC2086
    apt-get install -y -qq --no-install-recommends $missing > /dev/null
}

# The crates of the machine's release, and of Debian 13's loom if that hasn't it. They are copied,
# since `rt ci` allows no link below the top of the repository.
gather() {
    rm -rf "$target/debian/registry"
    mkdir -p "$target/debian"
    # Links that lead nowhere, as to a licence that isn't installed, are left out.
    cp -rL "$debian" "$target/debian/registry" 2> /dev/null || true
    for loom in "$debian"/loom-0.5.*; do
        [ -d "$loom" ] && return
    done
    loom="$target/debian/trixie/tree$debian"
    [ -d "$loom" ] || {
        step "loom of Debian 13"
        use_release trixie "$target/debian/trixie"
        unpack librust-loom-dev
    }
    cp -rL "$loom"/loom-* "$target/debian/registry"
}

# Debian's crates stand for the registry.
use_debian() {
    install_missing
    gather
    source_from "$target/debian" "$target/debian/registry"
    # A lock that the registry made has other versions.
    rm -f rust/Cargo.lock rust/*/Cargo.lock
}

# rustup lays cargo where a shell that nobody logged in to doesn't look.
home=${HOME:-$(getent passwd "$(id -u)" | cut -d: -f6)}
command -v cargo > /dev/null || PATH="$PATH:${CARGO_HOME:-$home/.cargo}/bin"

if ! CARGO_NET_RETRY=0 CARGO_HTTP_TIMEOUT=10 \
    cargo fetch --quiet --manifest-path rust/Cargo.toml 2> /dev/null
then
    use_debian
fi
