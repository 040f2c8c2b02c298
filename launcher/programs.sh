# Where programs lie: the proved one of release/, and those that this machine built.

# cache_folder: the folder of what is unpacked and built. Where it cannot be made there is one for what is temporary.
cache_folder() {
    case ${XDG_CACHE_HOME:-} in
    /*) cache=$XDG_CACHE_HOME/imagen ;;
    *) cache=${HOME:-/dev/null}/.cache/imagen ;;
    esac
    mkdir -p "$cache" 2>/dev/null && [ -w "$cache" ] && return
    cache=${TMPDIR:-/tmp}/imagen-$(id -u)
    (umask 077 && mkdir -p "$cache" 2>/dev/null) && [ -O "$cache" ] && [ ! -L "$cache" ] && return
    fail $no_build "no folder can be made for the program, not even $cache"
}

# said KEY: what release/sums says
said() {
    sed -n "s/^$1 //p" "$top/release/sums" 2>/dev/null
}

# has_release SOURCES: whether the program of release/ was built of these sources, and is one for this machine
has_release() {
    [ "$(said sources)" = "$1" ] && [ -f "$packed" ] && [ "$(uname -sm)" = "Linux x86_64" ]
}

# unpack: the program of release/ in the cache, unpacked once. What is there under its sum is whole: it is moved there when it has that sum.
unpack() {
    sum=$(said program)
    program=$cache/$sum/imagen
    [ -x "$program" ] && return
    room=$(mktemp -d "$cache/unpack.XXXXXX") || fail $no_build "$cache cannot be written"
    trap 'rm -rf "$room"' EXIT
    gzip -dc "$packed" >"$room/imagen" 2>/dev/null
    if [ "$(first_sum <"$room/imagen")" != "$sum" ]; then
        fail $no_build "$packed is damaged, or the disk is full: what it holds has another sum than release/sums says"
    fi
    chmod 755 "$room" "$room/imagen"
    place "$room" imagen "$sum"
}

# How many programs are kept: the newest ones.
most_kept=10

# place FOLDER NAME SUM: moves the folder's file of this name into the cache, under this sum, and removes the folder and the oldest programs
place() {
    mkdir -p "$cache/$3" && mv "$1/$2" "$cache/$3/$2.$$" && mv "$cache/$3/$2.$$" "$cache/$3/$2" || fail $no_build "$cache cannot be written"
    rm -rf "$1"
    trap - EXIT
    for old in $(cd "$cache" && ls -dt -- */ 2>/dev/null | tail -n +$((most_kept + 1))); do
        rm -rf "${cache:?}/$old"
    done
}

# find_program: sets `program` to the one for the sources as they stand, and `state` to what it is: proved, not proved, or not built
find_program() {
    cache_folder
    now=$(sources "$top")
    state=proved
    if has_release "$now"; then
        unpack
        return
    fi
    need_rt
    built=$(built_of "$now")
    program=$cache/$built/proved
    [ -x "$program" ] && return
    state="not proved"
    program=$cache/$built/unproved
    [ -x "$program" ] || state="not built"
}
