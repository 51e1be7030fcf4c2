# shellcheck shell=sh disable=SC2034,SC2086,SC2154
# The summary of an outline, for ./wiforekun, which reads this file and has the functions that it uses.
mark_names='policy action'

# marked: the summary of the outline of $place is in $out, held to what the checker printed, which is in $checked, with its status in
# $found: a refused sheet is printed as the checker prints it, and only an accepted outline has no mark.
marked() {
    if [ -n "$refusal" ]; then out=$checked; else ran outline_summary "$place" || return 1; fi
    case $found:$out in
        "3:$checked" | "0:$mark_names
") return 0 ;;
        "1:$mark_names
"?*)
            if printf %s "$out" | awk 'NR > 1 && !/^[0-7] ([0-9]|[12][0-9]|3[0-2])$/ { bad = 1 } END { exit bad || NR > 265 }'; then
                return 0
            fi
            ;;
    esac
    say "outline_summary printed what does not go with the checker's answer"
    worse 2
    return 1
}

# marks_kept: the marks of an outline that the checker refuses, in the file $marks, for the explanation
marks_kept() {
    checked=$out
    marked && workplace && printf %s "$out" >"$work/marks" && marks=$work/marks
    out=$checked
}

# summary: the marks. Its status is the checker's.
summary() {
    outline_place && check_outline || return
    worse "$found"
    checked=$out
    marked || return
    if [ "$explain" = explain ]; then
        if workplace && printf %s "$checked" >"$work/checked" &&
            said=$(printf %s "$out" | python3 "$here/tools/explain" summary "$folder" "$work/checked" $colour && printf .); then
            out=${said%.}
        else
            worse 2
        fi
    fi
    written
}
