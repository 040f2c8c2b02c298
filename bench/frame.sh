# What the scripts beside it that time crates share; they read it with `.`. A scratch repository holds the crates and a
# program over them, which prints for each word how many parts it went through and the nanoseconds that they took.
case ${1:-} in -h | --help)
    sed -n '2,/^[^#]/s/^# \{0,1\}//p' "$0"
    exit
    ;;
esac
set -e
top=$(cd "$(dirname "$0")/.." && pwd)
work=$(mktemp -d)
trap 'rm -rf "$work"' EXIT

# repository PROGRAM CRATE..: makes the repository, with a folder for the program's source
repository() {
    program=$1
    shift
    mkdir -p "$work/crates/$program/src"
    for crate; do cp -r "$top/crates/$crate" "$work/crates/"; done
    cp "$top/HANDLES" "$work/"
    for crate; do grep "^$crate:" "$top/crates.txt"; done >"$work/crates.txt"
    echo "$program: $*" >>"$work/crates.txt"
}

# main_over_files: ends the program's source, which has a function time_file, with a main that calls it for each word
main_over_files() {
    cat >>"$work/crates/$program/src/main.rt" <<'END'

fn main(rt: HostRuntime) -> io::Result<()> {
    for word in std::env::args(&rt)?.skip(1) {
        time_file(&rt, word.as_str())?;
    }
    Ok(())
}
END
}

# build WORD..: proves and builds the program, and runs it once
build() {
    (cd "$work/crates/$program" && nice -n 10 rt run -- "$@") >"$work/build.log" 2>&1 || { cat "$work/build.log" >&2; exit 1; }
}

# heading PARTS PART [COLUMN]: of a table of times
heading() {
    echo "| $1 | ns | ns for each $2 | ratio |${3:+ $3 |}"
    echo "|---|---|---|---|${3:+---|}"
    first=
}

# row WORD [CELL]: the best of five runs on the word. The ratio is to the first row.
row() {
    best=$(for _ in 1 2 3 4 5; do "$work/crates/$program/out/$program" "$1"; done | sort -n -k 2 | head -n 1)
    each=$(echo "$best" | awk '{ printf "%.2f", $2 / $1 }')
    first=${first:-$each}
    echo "$best" | awk -v e="$each" -v f="$first" '{ printf "| %d | %.0f | %s | %.2f |", $1, $2, e, e / f }'
    echo "${2:+ $2 |}"
}
