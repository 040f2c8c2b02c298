# What the launcher answers itself.

# The usage note, as the program itself writes it.
usage() {
    echo 'usage: imagen check P, replay P E, instrument P, save P E, stress N'
}

help() {
    cat <<'END'
imagen check P         prints the kind of the page P: plain or form
imagen replay P E      runs the page P on the events of the file E, and prints its lines
imagen instrument P    prints the page P with opened scopes, which prints the same lines
imagen save P E        runs the page P on the events of E, and prints the page as it is then
imagen park P E NAME   does so, keeps the page as the next version of the session NAME, and prints which that is
imagen fetch NAME V    prints the page that is kept as version V of the session NAME
imagen parked          prints the name, the version and the size of each page that is kept
imagen drop NAME V     keeps this page no more
imagen stress N        generates a page with N parts, runs it, moves it halfway, and prints the numbers
imagen explain P [E]   tells where, by line and column, the page P or the events of E are refused
imagen help            prints this; so does --help
imagen --version       prints the commit, the kit, and whether the program is proved
imagen --program       prints where the program lies that these commands run
imagen --build         proves and builds the program, and tells where it lies

man -l docs/imagen.1 says more.
END
}

# What stands in the checkout, and which program it runs.
version() {
    commit=$(git -C "$top" describe --always --dirty 2>/dev/null) || commit="of an unknown commit"
    if has_release "$(sources "$top")"; then
        echo "imagen $commit, $(said kit), proved"
    elif ! command -v rt >/dev/null; then
        echo "imagen $commit, no kit, no program: release/ has none of these sources for this machine"
    else
        find_program
        echo "imagen $commit, $(rt version </dev/null 2>/dev/null), $state"
    fi
}
