#!/bin/bash
# Installs the built program in a new folder and tries what is there: the program, its manual page, and what
# each shell offers after some words. A shell that this machine lacks is left out, which is said.
set -u
cd "$(dirname "$0")/.."
. tools/expect.sh
touch "$room/west.city.jsonl" "$room/a b.city.jsonl" "$room/-dash"
share=$room/share

# bash, asked as readline asks it: the last word is the one to complete
offered_by_bash() {
    (
        cd "$room" || exit
        compopt() { :; }
        . "$share/bash-completion/completions/$1"
        COMP_WORDS=("$@")
        COMP_CWORD=$(($# - 1))
        "_${1//-/_}"
        echo "${COMPREPLY[*]}"
    )
}

# bash, typed at a terminal: the line as the tab key leaves it
cat >"$room/.bashrc" <<'END'
PS1=
bind 'set bell-style none'
bind -x '"\C-xp": printf "LINE<%s>END" "$READLINE_LINE"'
. share/bash-completion/completions/citymerge
. share/bash-completion/completions/citymerge-many
echo READY
END
cat >"$room/type.py" <<'END'
import os, pty, sys
pid, terminal = pty.fork()
if pid == 0:
    os.execvp("bash", ["bash", "--noprofile", "--rcfile", ".bashrc", "-i"])
def read_to(mark):
    seen = b""
    while mark not in seen:
        seen += os.read(terminal, 65536)
    return seen
read_to(b"READY\r\n")
os.write(terminal, sys.argv[1].encode() + b"\t\x18p")
print(read_to(b">END").rpartition(b"LINE<")[2].rpartition(b">END")[0].decode())
END
typed_in_bash() {
    (cd "$room" && timeout 30 python3 type.py "$1")
}

offered_by_fish() {
    (cd "$room" && fish --no-config -c "source $share/fish/vendor_completions.d/citymerge.fish; source $share/fish/vendor_completions.d/citymerge-many.fish; complete -C '$*'" | cut -f 1 | sort | tr '\n' ' ')
}

# zsh, typed at a terminal: the line as the tab key leaves it; a comma that is left there goes with the next blank
cat >"$room/.zshrc" <<'END'
PS1=
fpath=($ZDOTDIR/share/zsh/site-functions $fpath)
autoload -Uz compinit && compinit -u -D
show_line() { zle -I; print -r -- "LINE<$BUFFER>" }
zle -N show_line
bindkey '^X' show_line
print READY
END
cat >"$room/type.zsh" <<'END'
zmodload zsh/zpty
zpty shell ZDOTDIR=$PWD zsh -i
zpty -r shell begun '*READY*'
zpty -n -w shell "$1"$'\t\x18'
zpty -r shell line '*LINE<*>*'
print -r -- ${${line##*LINE<}%%>*}
zpty -d shell
END
typed_in_zsh() {
    (cd "$room" && timeout 30 zsh -f type.zsh "$1")
}

tools/install.sh install "$room" >"$room/said" || exit 1
expect 'the program' 'citymerge 0.1.0' "$("$room/bin/citymerge" --version)"
expect 'citymerge-many' 'citymerge-many 0.1.0' "$("$room/bin/citymerge-many" --version)"
expect 'citymerge-many finds the program beside it' same \
    "$(env -u CITYMERGE PATH=/usr/bin:/bin "$room/bin/citymerge-many" examples/west.city.jsonl | cmp - examples/west.expected.city.jsonl && echo same)"
expect 'the documents' "$( (ls docs; printf 'CHANGELOG.md\nLICENSE\nREADME.md\nexamples\n') | sort)" "$(ls "$share/doc/citymerge" | sort)"
expect 'no words' 'use: tools/install.sh install|uninstall PREFIX 2' "$(tools/install.sh 2>&1 | tr '\n' ' '; tools/install.sh >/dev/null 2>&1; echo $?)"
if command -v man >/dev/null; then
    for page in citymerge citymerge-many; do
        MANWIDTH=80 man --warnings -l "$share/man/man1/$page.1" 2>&1 | col -bx >"$room/$page"
        expect "the parts of the page of $page" 'NAME SYNOPSIS DESCRIPTION EXIT STATUS FILES SEE ALSO ' \
            "$(grep -xE 'NAME|SYNOPSIS|DESCRIPTION|EXIT STATUS|FILES|SEE ALSO' "$room/$page" | tr '\n' ' ')"
        expect "what $page is, on one line" "$page - merge" "$(grep -A 2 -x NAME "$room/$page" | tr '\n' '|' |
            sed -n 's/^NAME| *\([a-z-]* - [a-z]*\)[^|]*[^.|]||$/\1/p')"
        expect "lines above 80 columns in that of $page" '' "$(awk 'length > 80' "$room/$page")"
        expect "the day of the release in that of $page" "$(sed -n 's/^## [^ ]* (\(.*\))$/\1/p' CHANGELOG.md | head -n 1)" \
            "$(tail -n 1 "$room/$page" | grep -oE '[0-9]{4}-[0-9]{2}-[0-9]{2}')"
    done
    expect 'the texts of faults in the page are those that come' "$(sed -n 's/^| [0-9]* | `\([^`]*\)` | now |.*/\1/p' docs/FAULTS.md)" \
        "$(sed -n 's/^| [0-9]* | `\([^`]*\)`.*/\1/p' docs/FAULTS.md |
            while read -r text; do grep -F "$text" "$room/citymerge" | sed 's/^ *//'; done)"
else
    echo 'man is not installed: the manual page was not tried'
fi
expect 'bash: the commands' 'merge' "$(offered_by_bash citymerge me)"
expect 'bash: an option with a value' '--cotype=' "$(offered_by_bash citymerge filter --c)"
expect 'bash: no option of another command' '' "$(offered_by_bash citymerge filter --l)"
expect 'bash: a tile' 'west.city.jsonl' "$(offered_by_bash citymerge merge w)"
expect 'bash: a command to be helped with' 'filter' "$(offered_by_bash citymerge help f)"
expect 'bash: a type' 'TINRelief' "$(offered_by_bash citymerge filter --cotype = TINR)"
expect 'bash: the next type' 'Road,Waterway' "$(offered_by_bash citymerge merge --cotype = Road,Waterw)"
expect 'bash: all types' 32 "$(offered_by_bash citymerge merge --cotype = | wc -w)"
for words in 'filter w' 'cat w' 'help w' 'merge --bbox = w' 'merge --bbox ='; do
    expect "bash: nothing after $words" '' "$(offered_by_bash citymerge $words)"
done
expect 'bash: a type, typed' 'citymerge filter --cotype=Road,Waterway' "$(typed_in_bash 'citymerge filter --cotype=Road,Waterw')"
expect 'bash: a name with a blank, typed' 'citymerge merge a\ b.city.jsonl ' "$(typed_in_bash 'citymerge merge a')"
expect 'bash: a name after --, typed' 'citymerge merge -- -dash ' "$(typed_in_bash 'citymerge merge -- -d')"
expect 'bash: nothing after filter, typed' 'citymerge filter w' "$(typed_in_bash 'citymerge filter w')"
for words in 'filter < ' 'cat <' 'filter --exclude > ' 'merge --in-turn w 2>'; do
    expect "bash: a file after $words" "citymerge ${words}west.city.jsonl " "$(typed_in_bash "citymerge ${words}w")"
done
expect 'bash: an option after a file that is read' 'citymerge filter < w --exclude ' "$(typed_in_bash 'citymerge filter < w --ex')"
expect 'bash: an option of citymerge-many' '--output=' "$(offered_by_bash citymerge-many --o)"
expect 'bash: options of citymerge-many' '--in-turn --least' "$(offered_by_bash citymerge-many --in) $(offered_by_bash citymerge-many --l)"
expect 'bash: a tile of citymerge-many, typed' 'citymerge-many a\ b.city.jsonl ' "$(typed_in_bash 'citymerge-many a')"
if command -v fish >/dev/null; then
    expect 'fish: an option of citymerge-many' '--output ' "$(offered_by_fish citymerge-many --outp)"
    expect 'fish: the commands' 'merge ' "$(offered_by_fish citymerge me)"
    expect 'fish: an option with a value' '--cotype ' "$(offered_by_fish citymerge filter --c)"
    expect 'fish: no option of another command' '' "$(offered_by_fish citymerge filter --l)"
    expect 'fish: a tile' 'west.city.jsonl ' "$(offered_by_fish citymerge merge w)"
    expect 'fish: a type' '--cotype=TINRelief ' "$(offered_by_fish citymerge filter --cotype=TINR)"
    expect 'fish: the next type' '--cotype=Road,Waterway ' "$(offered_by_fish citymerge merge --cotype=Road,Waterw)"
    expect 'fish: help of a command' '--help ' "$(offered_by_fish citymerge cat --h)"
    expect 'fish: a file that is read' 'west.city.jsonl ' "$(offered_by_fish 'citymerge filter < w')"
    for words in 'filter w' 'cat w' 'help w' 'help merge w' 'merge --bbox=w'; do
        expect "fish: nothing after $words" '' "$(offered_by_fish citymerge $words)"
    done
else
    echo 'fish is not installed: its completions were not tried'
fi
if command -v zsh >/dev/null; then
    expect 'zsh: an option of citymerge-many' 'citymerge-many --output=' "$(typed_in_zsh 'citymerge-many --outp')"
    expect 'zsh: a tile of citymerge-many' 'citymerge-many west.city.jsonl ' "$(typed_in_zsh 'citymerge-many w')"
    expect 'zsh: the commands' 'citymerge merge ' "$(typed_in_zsh 'citymerge me')"
    expect 'zsh: an option with a value' 'citymerge filter --cotype=' "$(typed_in_zsh 'citymerge filter --c')"
    expect 'zsh: a tile' 'citymerge merge west.city.jsonl ' "$(typed_in_zsh 'citymerge merge w')"
    expect 'zsh: a type' 'citymerge filter --cotype=TINRelief,' "$(typed_in_zsh 'citymerge filter --cotype=TINR')"
    expect 'zsh: the next type' 'citymerge merge --cotype=Road,Waterway,' "$(typed_in_zsh 'citymerge merge --cotype=Road,Waterw')"
    expect 'zsh: a file that is read' 'citymerge filter < west.city.jsonl ' "$(typed_in_zsh 'citymerge filter < w')"
    for words in 'filter w' 'cat w' 'help w' 'help merge f' 'merge --bbox=w'; do
        expect "zsh: nothing after $words" "citymerge $words" "$(typed_in_zsh "citymerge $words")"
    done
else
    echo 'zsh is not installed: its completions were not tried'
fi

tools/install.sh uninstall "$room" >"$room/said"
expect 'nothing is left' '' "$(find "$room/bin" "$share" -type f; ls "$share/doc")"

counted 'Installed'
