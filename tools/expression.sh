# shellcheck shell=sh
# Outlines typed as expressions, for ./wiforekun, which reads this file. It has the folder in $folder and what the programs print in $out.
node_names='node kind a b'

# has_outline: is there an outline, as a sheet or as an expression?
has_outline() {
    [ -e "$folder/outline.txt" ] || [ -e "$folder/outline.expr" ]
}

# one_outline: a folder has one outline
one_outline() {
    if [ -e "$folder/outline.txt" ] && [ -e "$folder/outline.expr" ]; then
        say "$folder has outline.txt and outline.expr; an outline is given by one of the two: remove the other"
        exit 2
    fi
}

# read_expression: the outline sheet of the folder's expression is in $out, or its refusal, and then $found is 3
read_expression() {
    ran expression_reader "$folder" || return 1
    found=0
    case $out in
        "$node_names
"?*) ;;
        *)
            found=$(printf %s "$out" | verdict outline_checker)
            if [ "$found" != 3 ]; then
                say "expression_reader printed what it never prints"
                worse 2
                return 1
            fi
            ;;
    esac
}

# outline_place: where the checker finds the outline and the policies, in $place: the folder, or for an expression one of our own that has
# its outline sheet. Of a refused expression $refusal has the lines, and the sheet is one of no step.
outline_place() {
    place=$folder
    refusal=
    [ -e "$folder/outline.expr" ] || return 0
    read_expression || return 1
    [ "$found" = 0 ] || {
        refusal=$out
        out="$node_names
0 0 0 0
"
    }
    workplace && place=$work/outline && mkdir -p "$place" && printf %s "$out" >"$place/outline.txt" || {
        say "there is no place for a folder of its own, in which the expression is checked"
        worse 2
        return 1
    }
    # what can't be copied can't be read: the checker takes it for an empty sheet, as it would in its folder
    cp -- "$folder/policies.txt" "$place/policies.txt" 2>/dev/null || :
}

# check_outline: the checker, on the outline of the folder. What it says of refused policies comes before the refusal of an expression.
check_outline() {
    judged outline_checker "$place" || return 1
    if [ -n "$refusal" ] && [ "$found" != 3 ]; then
        out=$refusal
        found=3
    fi
}

# nodes: the outline sheet of the folder's expression
nodes() {
    if [ ! -e "$folder/outline.expr" ]; then
        say "$folder has no outline.expr"
        exit 2
    fi
    read_expression || return
    worse "$found"
    lines=$out
    if [ "$found" = 3 ]; then words_run=nodes; fi
    told
}
