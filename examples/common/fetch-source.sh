#!/bin/sh
# Fetches the upstream archive of a source package of Debian 12 and unpacks it into a folder:
#
#     fetch-source.sh PACKAGE ARCHIVE SHA256 FOLDER
#
# It asks apt-get with lists of its own, so that nothing of the machine's set-up is read or changed
# but the key of Debian's archive; needs no root. The archive is the release as its authors made
# it: Debian's own patches stand in another file. Ends with 1, and leaves no FOLDER, where the
# archive can't be had or isn't the one of this SHA256.

if [ $# -ne 4 ]; then
    echo "usage: $0 PACKAGE ARCHIVE SHA256 FOLDER" >&2
    exit 64
fi
package=$1 archive=$2 sum=$3 folder=$4
for tool in apt-get sha256sum tar xz gpgv; do
    command -v $tool > /dev/null || { echo "$0: $tool isn't there" >&2; exit 1; }
done
if [ -e "$folder" ]; then exit 0; fi
work=$(mktemp -d) || exit 1
trap 'rm -rf "$work"' EXIT
trap 'exit 129' HUP
trap 'exit 130' INT
trap 'exit 143' TERM
chmod 755 "$work"

# apt-get with the sources of Debian 12 alone, and with lists and cache in the work folder.
own_apt() {
    apt-get -qq -o Dir::State::lists="$work/lists" -o Dir::Cache="$work/cache" \
        -o Dir::Etc::sourcelist="$work/sources.list" -o Dir::Etc::sourceparts=- \
        -o APT::Sandbox::User="$(id -un)" "$@"
}

key=/usr/share/keyrings/debian-archive-keyring.gpg
echo "deb-src [signed-by=$key] http://deb.debian.org/debian bookworm main" > "$work/sources.list"
mkdir -p "$work/lists/partial" "$work/cache/archives/partial" "$work/source"
echo "fetching $archive of Debian's source package $package" >&2
own_apt update || exit 1
(cd "$work/source" && own_apt source --download-only "$package") || exit 1
if ! echo "$sum  $work/source/$archive" | sha256sum --check --quiet; then
    echo "$0: $archive isn't the one that was asked for" >&2
    exit 1
fi
mkdir "$work/unpacked"
tar -xf "$work/source/$archive" -C "$work/unpacked" --strip-components=1 || exit 1
cp -R "$work/unpacked" "$folder"
