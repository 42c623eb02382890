# What the program is built from, and the mark that tells that it was built from it. Read by ./morph and by .ci/run.
# The reader sets `root`, the folder of the repository.
program=$root/crates/morph/out/morph
built=$root/crates/morph/out/morph.sources

# The crates that `morph` stands on, itself included, one a line.
crates() {
    awk -F: '
        { sub(/#.*/, "") }
        NF > 1 { split($1, head, " "); stands[head[1]] = $2 }
        function visit(name, names, n, i) {
            if (seen[name]++ || !(name in stands)) return
            print name
            n = split(stands[name], names, " ")
            for (i = 1; i <= n; i++) visit(names[i])
        }
        END { visit("morph") }
    ' "$root/crates.txt" | LC_ALL=C sort
}

# The folders of these crates that the program is built from.
folders() {
    crates | while read -r name; do
        for part in src specs proofs; do
            [ ! -d "$root/crates/$name/$part" ] || printf '%s\n' "$root/crates/$name/$part"
        done
    done
}

# One checksum of all files of these folders, with their names, and of these crates' lines in crates.txt.
sources() {
    {
        crates | while read -r name; do grep "^$name[ :]" "$root/crates.txt"; done
        cd "$root" && folders | sed "s|^$root/||" | tr '\n' '\0' |
            xargs -0 -I FOLDER find FOLDER -type f -print0 | LC_ALL=C sort -z | xargs -0 -r sha256sum
    } | sha256sum | cut -d ' ' -f 1
}

# The program as it lies there: its size and its date.
lies() { stat -c '%s %Y' "$program" 2> /dev/null; }

# The mark has three lines: the kit, the checksum of the sources, and how the program lies. `open_mark` goes before a
# build, and `close_mark` behind one that passed. The mark has the date of its opening, so a source that is changed
# during the build is later.
open_mark() {
    opened=$(date +%s.%N)
    mark=$(rt version < /dev/null; sources)
}

close_mark() {
    [ "$mark" = "$(rt version < /dev/null; sources)" ] && [ -x "$program" ] || return
    printf '%s\n%s\n' "$mark" "$(lies)" > "$built" && touch -d "@$opened" "$built"
}

# Whether the mark is that of the program which lies there, and nothing was changed since: no file or folder of the
# sources has a later change of status than the mark. It reads no file.
is_unchanged() {
    [ -x "$program" ] && [ -f "$built" ] && [ "$(sed -n 3p "$built")" = "$(lies)" ] || return 1
    local kit
    kit=$(readlink -f -- "$(command -v rt)" 2> /dev/null)
    [ -z "$(folders | tr '\n' '\0' | xargs -0 sh -c 'find "$@" -newercm "$0" -print -quit' "$built")" ] &&
        [ -z "$(find "$root/crates.txt" ${kit:+"$kit"} -newercm "$built" -print -quit)" ]
}

# Whether the program that lies there is that of the present sources, by their checksum. Without a kit the sources alone
# are compared. Where it is, the mark gets today's date, so that the next call reads no file.
is_of_sources() {
    [ -x "$program" ] && [ -f "$built" ] && [ "$(sed -n 3p "$built")" = "$(lies)" ] || return 1
    local kit
    kit=$(sed -n 1p "$built")
    if command -v rt > /dev/null; then kit=$(rt version < /dev/null); fi
    cp "$built" "$built.new" && [ "$(sed -n 1p "$built")" = "$kit" ] &&
        [ "$(sed -n 2p "$built")" = "$(sources)" ] && mv "$built.new" "$built"
}
