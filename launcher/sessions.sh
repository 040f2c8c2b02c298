# Commands on the file of sessions in the folder of the call, imagen.db. The program itself ends with 8 at once where another one has the file, and
# makes the file when it looks for what is kept. So here those that work in one folder wait for each other, and one that only looks works elsewhere
# where there is no file.

patience=10
keeper_failed=8

# may_be_busy: whether the file is one of sessions, which another process may have. What is wrong with any other file does not pass.
may_be_busy() {
    [ -w imagen.db ] && [ -w . ] && { [ ! -s imagen.db ] || [ "$(head -c 15 imagen.db)" = "SQLite format 3" ]; }
}

# once WORD..: runs the program, and keeps its note
once() {
    { note=$("$program" "$@" 2>&1 >&4 4>&-); } 4>&1
}

# elsewhere: goes to an empty folder, which is removed at the end
elsewhere() {
    room=$(mktemp -d) && trap 'rm -rf "$room"' EXIT && cd "$room"
}

# run_on_sessions WORD..: runs the program, and again where another process has the file, until ten seconds have passed
run_on_sessions() {
    { : >&1; } 2>/dev/null || exec "$program" "$@"
    [ "$1" = park ] || [ -e imagen.db ] || elsewhere
    end=$(($(date +%s) + patience))
    # The folder is locked, which makes no file. Those that begin the program by themselves do not look there: so there are more tries.
    exec 9<. && flock -w $patience 9 2>/dev/null
    while
        once "$@"
        status=$?
        [ $status -eq $keeper_failed ] && may_be_busy && [ "$(date +%s)" -lt $end ]
    do
        sleep 0.1
    done
    [ -z "$note" ] || printf '%s\n' "$note" >&2
    exit $status
}
