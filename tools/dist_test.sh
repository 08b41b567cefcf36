#!/bin/sh
# Makes the archive and the package of the built program twice, here and in a copy of the clone under other
# circumstances, holds them against one another, and runs what is in them.
set -u
cd "$(dirname "$0")/.."
. tools/expect.sh
version=$(build/citymerge --version | cut -d ' ' -f 2)

# what a clone has of it, and the program
copy=$room/copy
mkdir -p "$copy/build" "$copy/crates/manual"
cp -r README.md LICENSE CHANGELOG.md docs examples tools "$copy"
cp crates/manual/stdout "$copy/crates/manual"
cp build/citymerge "$copy/build"

expect 'CHANGELOG begins with the version' "$version" "$(sed -n 's/^## \([^ ]*\) (.*$/\1/p' CHANGELOG.md | head -n 1)"
expect 'citymerge-many has it, too' "citymerge-many $version" "$(python3 examples/many_tiles.py --version)"
if ! command -v dpkg-deb >/dev/null; then
    echo 'dpkg-deb is not installed: the archive and the package were not tried'
    counted 'The release'
    exit
fi
tools/dist.sh "$room/here" >"$room/said" 2>&1 || cat "$room/said"
expect 'it is made' 0 "$?"
(umask 077; TZ=Asia/Tokyo HOME=/none USER=somebody LC_ALL=C.UTF-8 TAR_OPTIONS=--sparse XZ_OPT=-1 "$copy/tools/dist.sh" "$room/there" >"$room/said" 2>&1) || cat "$room/said"
expect 'from a copy the same' same "$(diff -r "$room/here" "$room/there" && echo same)"
expect 'the sums' "0|$(ls "$room/here" | grep -v SHA256SUMS | sed 's/$/: OK/')" "$(cd "$room/here" && sha256sum -c --quiet SHA256SUMS; echo "$?|$(sha256sum -c SHA256SUMS)")"
expect 'nothing else is made' 3 "$(ls "$room/here" | wc -l)"
sed -i '1,/^## /s/^## [^ ]*/## 9.9.9/' "$copy/CHANGELOG.md"
expect 'another version in CHANGELOG' "$(printf 'CHANGELOG.md begins with 9.9.9, and the program is %s\n1' "$version")" "$("$copy/tools/dist.sh" "$room/other" 2>&1; echo "$?")"

mkdir "$room/tools"
printf '#!/bin/sh\ncase $1 in --sort*) exit 2 ;; esac\nexec %s "$@"\n' "$(command -v tar)" >"$room/tools/tar"
chmod 755 "$room/tools/tar"
expect 'tar fails' 2 "$(PATH=$room/tools:$PATH tools/dist.sh "$room/other" >/dev/null 2>&1; echo "$?")"

# what the programs of a folder say; of a merge only where it is not what it should be
tried() {
    PATH=$1:$PATH
    citymerge --version
    citymerge merge --in-turn examples/west.city.jsonl examples/east.city.jsonl | cmp - examples/west_and_east.expected.city.jsonl
    env -u CITYMERGE "$1/citymerge-many" --in-turn examples/west.city.jsonl examples/east.city.jsonl | cmp - examples/west_and_east.expected.city.jsonl
    citymerge-many --version
}
wanted=$(printf 'citymerge %s\ncitymerge-many %s' "$version" "$version")
tar -xzf "$room/here"/*.tar.gz -C "$room"
folder=$(echo "$room"/citymerge-*-linux-*)
expect 'the archive is one folder, named by version and machine' "$room/citymerge-$version-linux-$(uname -m)" "$folder"
expect 'the sums of the archive' 0 "$(cd "$folder" && sha256sum -c --quiet SHA256SUMS >&2; echo $?)"
expect 'all of it has a sum' "$(find "$folder" -type f ! -name SHA256SUMS | wc -l)" "$(wc -l <"$folder/SHA256SUMS")"
expect 'links of its README that lead nowhere' '' \
    "$(grep -oE '\]\([^)#:]+[)#]' "$folder/README.md" | sed 's/^..//; s/.$//' | while read -r to; do [ -e "$folder/$to" ] || echo "$to"; done)"
expect 'the programs of the archive' "$wanted" "$(tried "$folder/bin" 2>&1)"
mkdir "$room/empty"
dpkg-deb -x "$room/here"/*.deb "$room/empty"
expect 'the programs of the package' "$wanted" "$(tried "$room/empty/usr/bin" 2>&1)"
expect 'the commands of its documents, in an empty folder with no clone' 'The commands of the installed documents: N right, 0 wrong' \
    "$(python3 tools/commands_test.py --package "$room/empty" | tail -n 1 | sed 's/: [1-9][0-9]* right/: N right/')"
expect 'the version of the package' "$version" "$(dpkg-deb -f "$room/here"/*.deb Version)"
expect 'its maintainer, with no address that does not exist' 'The citymerge authors' "$(dpkg-deb -f "$room/here"/*.deb Maintainer)"
expect 'what it is, as its manual page says' "$(sed -n 's/^citymerge .- //p' crates/manual/stdout)" \
    "$(dpkg-deb -f "$room/here"/*.deb Description | head -n 1)"
for file in man/man1/citymerge.1.gz man/man1/citymerge-many.1.gz bash-completion/completions/citymerge \
    zsh/vendor-completions/_citymerge fish/vendor_completions.d/citymerge.fish \
    doc/citymerge/README.md doc/citymerge/GUIDE.md doc/citymerge/FAULTS.md doc/citymerge/copyright \
    doc/citymerge/examples/town.city.json; do
    expect "$file" there "$([ -s "$room/empty/usr/share/$file" ] && echo there)"
done
expect 'the sums of the package' 0 "$(dpkg-deb -e "$room/here"/*.deb "$room/control"; cd "$room/empty" && md5sum -c --quiet "$room/control/md5sums" >&2; echo $?)"
if command -v lintian >/dev/null; then
    expect 'lintian' '' "$(lintian --allow-root "$room/here"/*.deb 2>&1)"
else
    echo 'lintian is not installed: the package was not looked at'
fi

counted 'The release'
