# shellcheck shell=sh disable=SC2154
# Building the programs, for ./wiforekun, which reads this file. It has their names in $programs, the checkout in $here, and say().

# is a program missing, or older than a source file?
stale() {
    for name in $programs; do
        bin=$here/target/bin/$name
        [ -x "$bin" ] || return 0
        newer=$(find "$here/crates" "$here/crates.txt" -name out -prune -o -newer "$bin" -type f \
            \( -name '*.rt' -o -name '*.antt' -o -name crates.txt \) -print) || return 0
        [ -z "$newer" ] || return 0
    done
    return 1
}

# how many crates are proved for the programs
crates_to_prove() {
    awk -v programs="$programs" '
        { sub(/#.*/, ""); i = index($0, ":"); if (i) { n = substr($0, 1, i - 1); gsub(/[ \t]/, "", n); deps[n] = substr($0, i + 1) } }
        function visit(n,    a, k, m) {
            if (!(n in deps) || n in seen) return
            seen[n] = 1; count++
            m = split(deps[n], a, " ")
            for (k = 1; k <= m; k++) visit(a[k])
        }
        END {
            m = split(programs, list, " ")
            for (k = 1; k <= m; k++) visit(list[k])
            print count
        }' "$here/crates.txt"
}

# progress: tells of each crate that rt, on standard input, says is proved, with a count before it, once for all programs; ends with the
# status that the last line tells
progress() {
    total=$(crates_to_prove)
    crate=
    code=2
    while IFS= read -r line; do
        case $line in
            'wiforekun status '*)
                code=${line#wiforekun status }
                continue
                ;;
            'crate '*': '*)
                crate=${line#crate }
                crate=${crate%%:*}
                ;;
            'logic=proved '*)
                if [ -n "$crate" ] && ! grep -qxF -- "$crate" "$told"; then
                    printf '%s\n' "$crate" >>"$told"
                    say "[$(grep -c . "$told") of $total] $crate proved"
                fi
                crate=
                ;;
        esac
        printf '%s\n' "$line" >>"$log"
    done
    return "$code"
}

build() {
    if ! command -v rt >/dev/null; then
        say "the programs are not built, or are older than a source file, and the Rattle kit's command rt, which builds them," \
            "is not on the path"
        exit 2
    fi
    log=$here/target/build.log
    start=$here/target/build.start
    told=$here/target/build.told
    if ! (mkdir -p "$here/target/bin" && : >"$log" && : >"$start" && : >"$told") 2>/dev/null; then
        say "the programs are not built, or are older than a source file, and $here/target can't be written to:" \
            "run this once where the checkout can be written to"
        exit 2
    fi
    say "building the programs. The proofs of all that they use are checked first, which takes some minutes, less where parts were" \
        "checked before"
    for name in $programs; do
        crate=$here/crates/$name
        if ! { (cd "$crate" && rt check 2>&1) && code=0 || code=$?; echo "wiforekun status $code"; } | progress; then
            say "the programs could not be built; what the kit said ends in:"
            tail -n 20 "$log" >&2
            say "all of it is in $log"
            exit 2
        fi
        # rt links a program only to run it: here, where no sheets are, and how it ends is nothing to the build
        rm -f "$crate/out/$name"
        (cd "$crate" && rt run) </dev/null >>"$log" 2>&1 || true
        bin=$here/target/bin/$name
        if ! cp "$crate/out/$name" "$bin" 2>>"$log"; then
            say "the kit says that all is proved, but $crate/out/$name is not there: remove $crate/out and run this again"
            exit 2
        fi
        # as old as the build's start, so that a file changed since then is seen
        touch -r "$start" "$bin"
    done
}
