# Functions for ./riegeli, bindings/c/build, script/release, script/package and .ci/released: which sources a crate is built
# of, and what dist/ has of these. They take the top of the repository from `top`, and need POSIX tools, gzip and sha256sum.

# The lines of crates.txt of a crate and of all those that it stands on.
crate_lines() {
    LC_ALL=C awk -v crate="$1" '
        function need(name, line, words, count, i) {
            if (!(name in lines)) return
            line = lines[name]
            delete lines[name]
            print line
            sub(/^[^:]*:/, "", line)
            count = split(line, words, " ")
            for (i = 1; i <= count; i++) need(words[i])
        }
        { sub(/[ \t]*#.*/, ""); name = $1; sub(/:.*/, "", name); if (NF) lines[name] = $0 }
        END { need(crate) }' "$top/crates.txt" | LC_ALL=C sort
}

# The sources that a crate is built of: those lines, and of each file its checksum and name, by the command that is named.
# What tests, cases and refused edits hold is none of them. Times of files say nothing here, since an older file may come in
# place of another one.
sources_of() {
    (
        cd "$top" && lines=$(crate_lines "$1") && [ -n "$lines" ] || exit 1
        shift
        printf '%s\n' "$lines"
        set -- "$@" HANDLES
        for name in $(printf '%s\n' "$lines" | sed 's/[: ].*//'); do
            for folder in src specs proofs; do
                [ ! -d "crates/$name/$folder" ] || set -- "$@" "crates/$name/$folder"
            done
        done
        sums=$1
        shift
        find "$@" -type f \( -name '*.rt' -o -name '*.antt' -o -name HANDLES \) -exec "$sums" {} + | LC_ALL=C sort
    )
}

sum() {
    sha256sum | cut -d ' ' -f 1
}

sum_of_sources() {
    sources_of "$1" sha256sum | sum
}

# What dist/RELEASE says of something.
recorded() {
    sed -n "s/^$1: //p" "$top/dist/RELEASE"
}

# Whether what dist/ has of a crate was built of the sources that are there now.
is_released() {
    [ -f "$top/dist/RELEASE" ] && now=$(sum_of_sources "$1" 2> /dev/null) && [ -n "$now" ] &&
        [ "$now" = "$(recorded "sources of $1")" ]
}

# Unpacks a file of dist/, and sees that it is whole.
unpack() {
    gzip -dc "$top/dist/$1.gz" > "$2" && [ "$(sum < "$2")" = "$(recorded "$1")" ] ||
        { rm -f "$2"; (trap '' PIPE && echo "riegeli: dist/$1.gz is not what dist/RELEASE says" >&2) || :; return 1; }
}

# The commit that is checked out, where there is one. git says nothing by itself of a checkout that another user owns.
commit() {
    commit=
    if [ -f "$top/.git" ] || [ -e "$top/.git/HEAD" ]; then
        commit=$(git -c "safe.directory=$top" -c core.fsmonitor=false -C "$top" describe --always --dirty 2> /dev/null) ||
            commit='of an unknown commit'
    fi
    echo "${commit:-of no commit}"
}
