# What tools/start, tools/prove and tools/ship share, as functions of sh. They want the repository's folder in `top`.

programs='waplay waexplain waprune'

say() {
    echo "$program: $1" >&2
}

# Prints what a tool says of itself at its top.
usage() {
    sed -n '2,/^[^#]/s/^#\( \|$\)//p' "$0"
}

# Takes one of the programs: the functions below are about the one that was taken last. It is the crate of its name.
take() {
    program=$1
    shipped_name=bin/$program-x86_64-linux
    shipped_from_name=bin/$program-built-from
    shipped=$top/$shipped_name
    shipped_from=$top/$shipped_from_name
    built=$top/crates/$program/out/$program
    built_from=$top/crates/$program/out/built-from
    log=$top/crates/$program/out/build.log
    digest=$(digest_of_sources)
    # The word of ./test that names it.
    case $program in
        waplay) option=--program ;;
        *) option=--${program#wa}-program ;;
    esac
}

# The crates that the program is made of, its own among them, a line each.
crates_below() {
    awk -F: -v program="$program" '!/^#/ && NF > 1 { split($1, name, " "); below[name[1]] = $2 }
        function visit(crate,    all, at, number) {
            if (!(crate in below) || seen[crate]++) return
            print crate
            number = split(below[crate], all, " ")
            for (at = 1; at <= number; at++) visit(all[at])
        }
        END { visit(program) }' "$top/crates.txt" | LC_ALL=C sort
}

# The digest of what the program is made of: the lines of these crates in crates.txt, and every file of
# their folders src, specs and proofs.
digest_of_sources() {
    crates=$(crates_below)
    (
        cd "$top/crates" || exit
        grep -E "^($(echo "$crates" | paste -sd '|'))[: ]" "$top/crates.txt" | LC_ALL=C sort
        for crate in $crates; do
            printf '%s\n' "$crate/src" "$crate/specs" "$crate/proofs"
        done | xargs -r sh -c 'find "$@" -type f 2>/dev/null' sh | LC_ALL=C sort | xargs -r sha256sum
    ) | sha256sum | cut -d ' ' -f 1
}

# Whether a program is there that was built from these sources.
is_built_from() {
    [ -x "$1" ] && [ -r "$2" ] && [ "$(head -n 1 "$2")" = "sources $digest" ]
}

# How many crates are proved at a time: one on each processor, as far as memory goes, 3 GB each.
at_once() {
    processors=$(getconf _NPROCESSORS_ONLN 2>/dev/null || echo 1)
    awk -v most="$processors" '/^MemAvailable/ { room = int($2 / 3000000) }
        END { print room < 1 ? 1 : room < most ? room : most }' /proc/meminfo
}

minutes() {
    echo "$((($(date +%s) - begun) / 60)) min"
}

# Proves the crates side by side, and then builds the program. Each crate gets a line when it is through.
build() {
    say 'it is proved and built from the sources: 20 to 45 minutes on four processors, where nothing was proved before'
    say "what the prover says goes to $log"
    # Where a source is newer but says the same, only a program that is missing is linked again.
    rm -f "$built" "$built_from"
    mkdir -p "$(dirname "$log")"
    begun=$(date +%s)
    number=0
    count=$(crates_below | wc -l)
    (
        cd "$top/crates/$program" || exit
        { rt all check --jobs "$(at_once)"; rt run; } </dev/null 2>&1
    ) | while IFS= read -r line; do
        printf '%s\n' "$line"
        case $line in
            '== summary') say "building the program, after $(minutes)" ;;
            '== '*)
                number=$((number + 1))
                say "crate $number of $count, ${line#== }, after $(minutes)"
                ;;
        esac
    done >"$log"
    if [ ! -x "$built" ]; then
        tail -n 20 "$log" >&2
        say "the program could not be built; the lines above are the end of $log"
        return 1
    fi
    write_built_from "$built_from"
}

# Writes beside a program what it was built from, and by which toolchain.
write_built_from() {
    printf 'sources %s\ntoolchain %s\n' "$digest" "$(rt version)" >"$1"
}

# Compares the shipped program with another one, byte for byte, and says what comes of it.
compare_shipped() {
    if [ ! -r "$shipped" ]; then
        echo "$shipped_name is not there; tools/ship puts it there"
        return 1
    fi
    if ! is_built_from "$shipped" "$shipped_from"; then
        echo "$shipped_from_name names other sources than these; tools/ship mends it"
        return 1
    fi
    if ! cmp -s "$shipped" "$1"; then
        echo "$shipped_name is NOT the program that these sources make"
        return 1
    fi
    echo "$shipped_name is the program that these sources make, byte for byte"
}
