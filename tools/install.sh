#!/bin/sh
# Installs the built program with citymerge-many, their manual pages, completions, documents and examples below PREFIX, or
# removes them. DESTDIR is put before PREFIX, for whoever makes a package.
# Use: tools/install.sh install|uninstall PREFIX
set -eu
cd "$(dirname "$0")/.."
if [ $# -ne 2 ]; then
    echo "use: tools/install.sh install|uninstall PREFIX" >&2
    exit 2
fi
what=$1
prefix=${DESTDIR-}$2
share=$prefix/share
documents=share/doc/citymerge
manual=build/manual

# each file: its mode, where it comes from, and where a Debian system looks for it; a `text` has links to others, which
# all lie in one folder then
files="755 build/citymerge bin/citymerge
755 examples/many_tiles.py bin/citymerge-many
644 $manual/citymerge.1 share/man/man1/citymerge.1
644 $manual/citymerge-many.1 share/man/man1/citymerge-many.1
644 $manual/citymerge.bash share/bash-completion/completions/citymerge
644 $manual/_citymerge share/zsh/site-functions/_citymerge
644 $manual/citymerge.fish share/fish/vendor_completions.d/citymerge.fish
644 $manual/citymerge-many.bash share/bash-completion/completions/citymerge-many
644 $manual/_citymerge-many share/zsh/site-functions/_citymerge-many
644 $manual/citymerge-many.fish share/fish/vendor_completions.d/citymerge-many.fish
644 LICENSE $documents/LICENSE
$(for file in README.md CHANGELOG.md docs/*.md; do echo "text $file $documents/${file##*/}"; done)
$(for file in examples/*.json examples/*.jsonl; do echo "644 $file $documents/$file"; done)
644 examples/off_grid.py $documents/examples/off_grid.py"

case $what in
install)
    tools/manual.sh "$manual"
    echo "$files" | while read -r mode from to; do
        if [ "$mode" = text ]; then
            sed 's#](docs/#](#g; s#](\.\./#](#g' "$from" >"$manual/text"
            mode=644 from=$manual/text
        fi
        install -D -m "$mode" "$from" "$prefix/$to"
    done
    rm -f "$manual/text"
    echo "Installed: $prefix/bin/citymerge and citymerge-many, their manual pages, completions, documents and examples below $share"
    ;;
uninstall)
    echo "$files" | while read -r _ _ to; do
        rm -f "$prefix/$to"
    done
    rmdir "$prefix/$documents/examples" "$prefix/$documents" 2>/dev/null || true
    echo "Removed: $prefix/bin/citymerge and citymerge-many, their manual pages, completions, documents and examples below $share"
    ;;
*)
    echo "use: tools/install.sh install|uninstall PREFIX" >&2
    exit 2
    ;;
esac
