# Builds by the Rattle kit. Each works on a copy of the sources, so that what is built is what was summed, whatever is edited
# meanwhile, and nothing is written into the checkout.

# What builds take, as docs/GATE.md counts it.
proof_time="some two and a half hours of processor time"
try_time="some four minutes of processor time"

need_rt() {
    command -v rt >/dev/null && return
    fail $no_rt "the Rattle kit is needed, and its command rt was not found: release/ has no program of these sources for this machine (README.md says more)"
}

# begin_build: waits for another build to end, and sets `room` to a folder with a copy of the sources, `copied` and `built` to their sums. rt does
# not hold the lock: it is free once the launcher has ended, however that was.
begin_build() {
    exec 8>>"$cache/lock"
    if ! flock -n 8; then
        note "another build is under way: waiting for it"
        flock 8
    fi
    room=$(mktemp -d) || fail $no_build "no temporary folder can be made"
    trap 'end_build' EXIT
    trap 'exit 130' INT TERM
    mkdir "$room/repository" "$room/tmp"
    # Under root rt runs what it built as nobody, who has to come there.
    chmod 711 "$room" "$room/tmp"
    (cd "$top" && tar -cf - --exclude=out crates crates.txt HANDLES launcher) | (cd "$room/repository" && tar -xf -)
    copied=$(sources "$room/repository")
    built=$(built_of "$copied")
}

end_build() {
    [ -z "$building" ] || kill $building 2>/dev/null
    rm -rf "$room"
}

# wait_for PLACE PROGRESS: waits for the build, says how far it is, and gives the program a second name while it is at the place, since rt
# removes what it builds
wait_for() {
    began=$(date +%s)
    while kill -0 $building 2>/dev/null; do
        found=$($1)
        [ ! -f "$found" ] || [ "$found" -ef "$room/program" ] || ln -f "$found" "$room/program" 2>/dev/null
        [ ! -t 2 ] || printf '\rimagen: %s, %d s ' "$($2)" $(($(date +%s) - began)) >&2
        sleep 0.1
    done
    wait $building
    status=$?
    building=
    [ ! -t 2 ] || echo >&2
    return $status
}

# finish_build NAME: keeps the program that was caught under this name
finish_build() {
    if [ ! -x "$room/program" ]; then
        cp "$room/log" "$cache/build.log"
        fail $no_build "the build failed: see $cache/build.log"
    fi
    mv "$room/program" "$room/$1"
    place "$room" "$1" "$built"
    exec 8>&-
    use_built "$1"
}

# use_built NAME: sets `program` to what was built, if that is still of the sources as they stand
use_built() {
    program=$cache/$built/$1
    if [ "$(sources "$top")" != "$copied" ]; then
        fail $no_build "the sources changed while they were built: give the command again"
    fi
}

place_of_proved() {
    echo "$room"/tmp/rt-copy-*/repo/crates/imagen/out/imagen
}

# How many of the crates below imagen are proved.
progress_of_proved() {
    total=$(awk -v top=imagen -f "$top/launcher/below.awk" "$room/repository/crates.txt" | grep -c .)
    echo "$(grep -c '^rt: [a-z_0-9]* \(proved$\|is kept:\)' "$room/log") of $total crates are proved"
}

# caught PLACE PROGRESS COMMAND: begins the build and waits for it, once more where it went well but the program came and went unseen
caught() {
    for _ in 1 2 3; do
        $3 &
        building=$!
        wait_for "$1" "$2" || { rm -f "$room/program"; return; }
        [ ! -x "$room/program" ] || return
    done
}

run_ci() {
    cd "$room/repository" && unset CI && TMPDIR=$room/tmp exec rt ci imagen >"$room/log" 2>&1 </dev/null 8>&-
}

# Proves the program and builds it, as the gate does: what the gate proved on this machine is taken as it is.
build_proved() {
    need_rt
    cache_folder
    begin_build
    say "proving and building, in $proof_time, less what was proved here before; the log is $room/log"
    : >"$room/log"
    caught place_of_proved progress_of_proved run_ci
    finish_build proved
    say "proved and built: $program, which can be copied anywhere"
}

place_of_unproved() {
    find "$room/tmp" -type f -name program 2>/dev/null | head -n 1
}

progress_of_unproved() {
    echo building
}

# A program runs a page that takes some seconds, in which it is caught.
run_try() {
    echo '<html><script>"use strict";function t(){for(var i=0;i<9000;i++){}}</script></html>' | tr -d '\n' >"$room/page"
    echo '[{"call":"t"},{"call":"t"},{"call":"t"}]' >"$room/events"
    cd "$room/repository/crates/imagen" && TMPDIR=$room/tmp exec rt try --data "page=$room/page" --data "events=$room/events" -- replay page events \
        >"$room/lines" 2>"$room/log" </dev/null 8>&-
}

# Builds the program without a proof.
build_unproved() {
    note "the sources are not those of release/: building them once, without proofs, takes $try_time"
    note "what is built is not proved, and slow; ./imagen --build proves it, in $proof_time"
    begin_build
    if [ -x "$cache/$built/unproved" ]; then
        end_build
        use_built unproved
        return
    fi
    caught place_of_unproved progress_of_unproved run_try
    finish_build unproved
}
