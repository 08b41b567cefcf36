#!/bin/sh
# Makes what is given to users of the built program: an archive for Linux and a Debian package, with a file of
# their SHA-256 sums, in a folder. The same commit and the same program give the same bytes: times are the release's
# (or SOURCE_DATE_EPOCH), owners are root, names are sorted.
# Use: tools/dist.sh [FOLDER], without which it is build/dist
set -eu
cd "$(dirname "$0")/.."
tools/need.sh python3 tar gzip sha256sum dpkg-deb || exit 1
umask 022
export LC_ALL=C
unset TAR_OPTIONS GZIP XZ_DEFAULTS XZ_OPT
out=${1:-build/dist}
stage=build/stage

version=$(build/citymerge --version | cut -d ' ' -f 2)
release=$(sed -n 's/^## \([^ ]*\) (\(.*\))$/\1 \2/p' CHANGELOG.md | head -n 1)
if [ "${release% *}" != "$version" ]; then
    echo "CHANGELOG.md begins with ${release% *}, and the program is $version" >&2
    exit 1
fi
SOURCE_DATE_EPOCH=${SOURCE_DATE_EPOCH:-$(date -u -d "${release#* }" +%s)}
export SOURCE_DATE_EPOCH
machine=$(uname -m)
debian_machine=$(dpkg-deb --version >/dev/null && dpkg --print-architecture)
archive=citymerge-$version-linux-$machine
package=citymerge_${version}_$debian_machine
# there is no address to write to
maintainer='The citymerge authors'
libc=$(grep -aoE 'GLIBC_[0-9.]+' build/citymerge | sort -Vu | tail -n 1)

rm -rf "$stage"
mkdir -p "$out" "$stage/deb/DEBIAN"
rm -f "$out"/citymerge[-_]* "$out/SHA256SUMS"

# the files below this folder have this time, and the umask's modes
settle() {
    find "$1" -exec touch -h -d "@$SOURCE_DATE_EPOCH" {} +
}

# the sums of all files below this folder, by their names in it
sums() {
    (cd "$1" && find . -type f ! -path './DEBIAN/*' ! -name SHA256SUMS | sort | cut -c 3- | xargs -d '\n' "$2")
}

# the archive: what `make install` puts below PREFIX, with a README beside
tools/install.sh install "$stage/$archive" >/dev/null
cp LICENSE CHANGELOG.md "$stage/$archive"
sed 's#](docs/#](share/doc/citymerge/#g' README.md >"$stage/$archive/README.md"
sums "$stage/$archive" sha256sum >"$stage/SHA256SUMS"
mv "$stage/SHA256SUMS" "$stage/$archive/SHA256SUMS"
settle "$stage/$archive"
tar --sort=name --mtime="@$SOURCE_DATE_EPOCH" --owner=0 --group=0 --numeric-owner --format=ustar -C "$stage" \
    -cf "$stage/$archive.tar" "$archive"
gzip -9n <"$stage/$archive.tar" >"$out/$archive.tar.gz"

# the package: the same below /usr, as Debian wants it
deb=$stage/deb
tools/install.sh install "$deb/usr" >/dev/null
documents=$deb/usr/share/doc/citymerge
sed -i '1s#.*#\#!/usr/bin/python3#' "$deb/usr/bin/citymerge-many"
mkdir -p "$deb/usr/share/zsh/vendor-completions"
mv "$deb"/usr/share/zsh/site-functions/_citymerge* "$deb/usr/share/zsh/vendor-completions"
rmdir "$deb/usr/share/zsh/site-functions"
gzip -9n "$deb"/usr/share/man/man1/*.1
# Debian has the license in `copyright`
rm "$documents/LICENSE"
sed -i 's/(LICENSE)/(copyright)/' "$documents/README.md"
{
    printf 'citymerge (%s) stable; urgency=low\n\n  * The changes of this release are in CHANGELOG.md.\n\n' "$version"
    printf ' -- %s <>  %s\n' "$maintainer" "$(date -u -R -d "@$SOURCE_DATE_EPOCH")"
} | gzip -9n >"$documents/changelog.gz"
{
    echo 'Format: https://www.debian.org/doc/packaging-manuals/copyright-format/1.0/'
    echo 'Upstream-Name: citymerge'
    echo
    echo 'Files: *'
    sed -n 's/^Copyright (c) /Copyright: /p' LICENSE
    echo 'License: Expat'
    sed '1,/^Copyright/d; /./!d' LICENSE | sed 's/^/ /'
} >"$documents/copyright"
mkdir -p "$deb/usr/share/lintian/overrides"
cat >"$deb/usr/share/lintian/overrides/citymerge" <<'OVERRIDES'
# the program is given byte for byte as it was built, with the names in it
citymerge: unstripped-binary-or-object [usr/bin/citymerge]
# there is no address to write to
citymerge: malformed-contact Maintainer *
citymerge: bogus-mail-host-in-debian-changelog *
OVERRIDES
cat >"$deb/DEBIAN/control" <<CONTROL
Package: citymerge
Version: $version
Section: science
Priority: optional
Architecture: $debian_machine
Maintainer: $maintainer
Installed-Size: $(($(find "$deb/usr" -type f -printf '%s\n' | awk '{ s += int(($1 + 1023) / 1024) } END { print s }')))
Depends: libc6 (>= ${libc#GLIBC_}), python3 (>= 3.9)
Suggests: make
Description: merge, filter and make CityJSONSeq streams of city models
 citymerge joins the tiles of a city into one stream of CityJSON 2.0, moving
 each vertex exactly by whole steps of the grid, chooses features by their type
 and by where they lie, and cuts documents into streams. It names what does not
 fit before a byte is written, and needs memory that does not grow with the
 streams.
 .
 citymerge-many does so for any number of tiles.
CONTROL
sums "$deb" md5sum >"$deb/DEBIAN/md5sums"
settle "$deb"
dpkg-deb --root-owner-group -Zxz --threads-max=1 --build "$deb" "$out/$package.deb" >/dev/null 2>"$stage/said" ||
    dpkg-deb --root-owner-group -Zxz --build "$deb" "$out/$package.deb" >/dev/null
(cd "$out" && sha256sum "$archive.tar.gz" "$package.deb" >SHA256SUMS)
rm -rf "$stage"
cat "$out/SHA256SUMS"
