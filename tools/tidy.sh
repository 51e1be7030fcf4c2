# shellcheck shell=sh disable=SC2034,SC2154
# The sheet of policies as there is one way to write it: printed, held to what is there, or written back; for ./wiforekun, which reads this
# file. It has the folder in $folder, what is asked for in $tidy, and its functions.

# as_written: is policies.txt just what the program printed?
as_written() {
    printf %s "$out" | cmp -s -- - "$folder/policies.txt"
}

# saved: policies.txt becomes what the program printed, all of it or nothing: a new file beside it, with its permissions, takes its name.
# Where policies.txt is a link, so does the file that it leads to.
saved() {
    sheet=$folder/policies.txt
    while [ -L "$sheet" ]; do
        link=$(readlink "$sheet") || return 1
        case $link in
            /*) sheet=$link ;;
            *) sheet=$(dirname -- "$sheet")/$link ;;
        esac
    done
    new=$(mktemp -- "$sheet.XXXXXX") || return 1
    trap 'rm -f -- "$new"' EXIT
    cp -p -- "$sheet" "$new" && printf %s "$out" >"$new" && mv -f -- "$new" "$sheet"
}

# tidy: a refused sheet is told as the checker tells it, and is never written back.
tidy() {
    ran policy_writer "$folder" || return
    case $out in
        "$names"*)
            found=$(printf %s "$out" | verdict policy_writer)
            if [ "$found" != 3 ]; then
                say "policy_writer printed what it never prints"
                worse 2
                return
            fi
            worse 3
            lines=$out
            words_run=policies
            told
            return
            ;;
    esac
    if ! printf %s "$out" | awk 'NR > 1 && !/^[0-9]+ [0-9]+ [0-9]+ [0-9]+ [0-9]+ [0-9]+$/ { bad = 1 } END { exit bad || NR > 257 }'; then
        say "policy_writer printed what it never prints"
        worse 2
        return
    fi
    case $tidy in
        check)
            if ! as_written; then
                say "$folder/policies.txt is not as it would be written"
                worse 1
            fi
            ;;
        save)
            if ! as_written && ! saved; then
                say "$folder/policies.txt could not be written"
                worse 2
            fi
            ;;
        *) written ;;
    esac
}
