# shellcheck shell=sh disable=SC2154
# The routine desk, for ./wiforekun, which reads this file. It has the folder in $folder and what the programs print in $out.
desk_names='line answer detail lean'

# desk_lines: the monitor's lines among those of the desk's program, on standard input: what the check says of the outline and the number that
# tells the judge are left out. Fails where they are not what it prints.
desk_lines() {
    awk -v desk_names="$desk_names" -v names="$names" '
        NR == 1 { if ($0 != desk_names) bad = 1; print names; next }
        !/^[0-9]+ [0-5] [0-9]+ [01]$/ { bad = 1 }
        NR == 2 && $1 == 0 && $2 < 2 { next }
        { print $1, $2, $3 }
        END { exit bad || NR < 2 }'
}

# desk_ran: the program of the desk on the sheets of the folder. Its lines are in $told_by_desk, and in $out the monitor's. What is refused of an
# expression is told after the policies and before the trace.
desk_ran() {
    outline_place || return 1
    if [ "$place" != "$folder" ]; then
        cp -- "$folder/trace.txt" "$place/trace.txt" 2>/dev/null || :
    fi
    ran routine_desk "$place" || return 1
    told_by_desk=$out
    out=$(printf %s "$out" | desk_lines && printf .) || {
        say "routine_desk printed what it never prints"
        worse 2
        return 1
    }
    out=${out%.}
    case $refusal:$out in
        :* | *" 3 "*) ;;
        *)
            out=$refusal
            told_by_desk=$(printf %s "$refusal" | sed "1s/.*/$desk_names/; 2s/\$/ 0/" && printf .)
            told_by_desk=${told_by_desk%.}
            ;;
    esac
}

# desk: the trace of the folder at the desk, under its policies and its outline
desk() {
    desk_ran || return
    found=$(printf %s "$out" | verdict trace_monitor)
    worse "${found:-2}"
    if [ "$explain" = explain ]; then
        # shellcheck disable=SC2086
        if said=$(printf %s "$told_by_desk" | python3 "$here/tools/explain" desk "$folder" $colour && printf .); then
            out=${said%.}
        else
            worse 2
        fi
    fi
    written
}
