# shellcheck shell=sh disable=SC2154,SC2034
# The page, for ./wiforekun, which reads this file and has the other functions that it uses.

# into NAME WORD FOLDER FILE: a program, with its lines in a file of $work
into() {
    run "$1" "$2" "$3" && [ "$found" != 2 ] && printf %s "$out" >"$work/$4"
}

# report: what the programs printed is kept in a folder of its own, and told to the page. The status is that of the sheets.
report() {
    workplace || return 1
    mkdir "$work/run" || return 1
    if [ -e "$folder/trace.txt" ]; then into trace_monitor monitor "$folder" monitor || return 1; fi
    if has_outline; then
        check && [ "$found" != 2 ] && printf %s "$out" >"$work/check" || return 1
        checked=$out
        marked && printf %s "$out" >"$work/summary" || return 1
        out=$checked
        # of a refused expression there is no outline to look for one
        [ -n "$refusal" ] || ran outline_counterexample "$place" || return 1
        fits && printf %s "$out" >"$work/counterexample" || return 1
        case $out in
            "$trace_names
"?*)
                cp -- "$folder/policies.txt" "$work/run" && printf %s "$out" >"$work/run/trace.txt" || return 1
                judged trace_monitor "$work/run" && [ "$found" != 2 ] && printf %s "$out" >"$work/judged" || return 1
                ;;
        esac
    elif [ ! -e "$folder/trace.txt" ]; then
        policies_alone
        [ "$status" != 2 ] && printf %s "$lines" >"$work/policies" || return 1
    fi
    out=$(python3 "$here/tools/report" "$folder" "$work" "${save:-$folder/report.html}" && printf .) || return 1
    out="${out%.}${save:-$folder/report.html}: written
"
    written
}
