# The sum of what a program is built of.

# first_sum: the sum of what comes in
first_sum() {
    sha256sum | cut -c 1-64
}

# sources FOLDER: the sum of the sources of imagen in a checkout: the .rt files, by their names and contents, of its crate and of
# all below it, and what crates.txt says of these. Proofs and definitions are not compiled, so they do not count.
sources() {
    (
        cd "$1" || exit
        lines=$(awk -v top=imagen -f launcher/below.awk crates.txt)
        folders=$(echo "$lines" | sed 's|[: ].*||; s|^|crates/|')
        echo "$lines"
        find $folders -name out -prune -o -type f -name '*.rt' -exec sha256sum {} + | LC_ALL=C sort -k 2
    ) | first_sum
}

# built_of SOURCES: the sum of sources and of the kit that builds them
built_of() {
    echo "$1 $(rt version 2>/dev/null </dev/null)" | first_sum
}
