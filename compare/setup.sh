#!/bin/sh
# Fetches the crates that the judge needs from Debian's archive and unpacks
# them into vendor-debian/, without installing anything on the machine.
# Needs a Debian machine with apt, and network to its archive. Run as root.
set -eu
cd "$(dirname "$0")"

registry=vendor-debian/usr/share/cargo/registry
debs=vendor-debian/debs
mkdir -p "$registry" "$debs"

# A crate named a_b is packaged as librust-a-b-dev.
fetch() {
    package="librust-$(printf '%s' "$1" | tr '_A-Z' '-a-z')-dev"
    echo "fetching $package"
    (cd "$debs" && apt-get -qq download "$package" 2>/dev/null) || {
        echo "setup.sh: no package $package in the archive" >&2
        exit 1
    }
    dpkg -x "$debs/$package"_*.deb vendor-debian
}

apt-get -qq update
rm -f Cargo.lock "$debs"/*.deb
for crate in colored textwrap; do fetch "$crate"; done

# What these two need differs from one Debian release to the next, so cargo is
# asked again and again which crate it misses.
tries=0
until missing=$(cargo metadata --offline --format-version 1 2>&1 >/dev/null); do
    crate=$(printf '%s\n' "$missing" | sed -n \
        -e 's/.*no matching package named `\([^`]*\)` found.*/\1/p' \
        -e 's/.*searched package name: `\([^`]*\)`.*/\1/p' | head -n 1)
    tries=$((tries + 1))
    if [ -z "$crate" ] || [ "$tries" -gt 40 ]; then
        printf '%s\n' "$missing" >&2
        exit 1
    fi
    fetch "$crate"
done
rm -f "$debs"/*.deb
echo "setup.sh: all crates are in $registry"
