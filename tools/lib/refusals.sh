# What the line on the console means, in words for standard error. Read by `vdown`, which sets `root`, `mode` and `said`: the
# repository's folder, the mode of the words, and the line.
# shellcheck shell=sh disable=SC2154

say() {
    printf 'vdown: %s\n' "$*" >&2
}

# Bytes that no terminal should get become question marks, and those that only move become spaces. A tab stays.
plain() {
    LC_ALL=C tr '\013\014\015' '   ' | LC_ALL=C tr '\000-\010\016-\037\177' '?'
}

# A line of the input and a caret under a column, which counts bytes. Of a long line the part round the column is shown. Behind
# the caret's line nothing stands, and in front of it tabs stay, so that it stands right whatever a tab is.
show_place() {
    [ -f "$1" ] && [ -r "$1" ] || return 0
    LC_ALL=C sed -n "$2{p;q;}" <"$1" | plain | LC_ALL=C awk -v number="$2" -v column="$3" '
        { text = $0 }
        END {
            first = 1
            if (length(text) > 160 && column > 100) first = column - 80
            shown = substr(text, first, 160)
            before = substr(text, first, column - first)
            # Of a letter of several bytes the first one alone takes a place.
            gsub(/[\200-\277]/, "", before)
            gsub(/[^\t]/, " ", before)
            printf "%5d | %s\n      | %s^\n", number, shown, before
        }' >&2
}

# What a rule that breaks says in the mode `convert` beside what docs/RULES.md says of `check`.
tell_conversion() {
    case $1 in
        199)
            say "nothing is wrong with the files, but the design isn't converted yet: $root/docs/LANGUAGE.md, \"What convert takes and writes\", has what is" ;;
    esac
}

# Status 1: `FILE:LINE:COLUMN: refused RULE`.
tell_refusal() {
    rule=${said##*: refused }
    place=${said%: refused *}
    column=${place##*:}
    place=${place%:*}
    line=${place##*:}
    file=${place%:*}
    case $rule$line$column in
        *[!0-9]* | '') return 0 ;;
    esac
    found=$(awk -v head="### $rule: " 'index($0, head) == 1 { print FNR ":" substr($0, length(head) + 1); exit }' "$root/docs/RULES.md" 2>/dev/null)
    [ -z "$found" ] || say "rule $rule: ${found#*:}"
    show_place "$file" "$line" "$column"
    [ "$mode" != convert ] || tell_conversion "$rule"
    [ -z "$found" ] || say "read on at $root/docs/RULES.md:${found%%:*}, which says what to write instead"
}

# Status 3: `read fault FILE`.
tell_read_fault() {
    file=${said#read fault }
    name=$(printf '%s' "$file" | plain)
    if [ -z "$file" ]; then
        say "a FILE is an empty word: name a file"
    elif [ -d "$file" ]; then
        say "$name is a folder: name the files in it, in the order in which they use each other"
    elif [ -e "$file" ] && [ ! -r "$file" ]; then
        say "$name may not be read by this user: chmod u+r, or call vdown as a user who may"
    elif [ -e "$file" ]; then
        say "$name can't be read to its end: look at the device that it is on"
    elif [ -h "$file" ]; then
        say "$name is a link to a file that isn't there"
    else
        say "there is no file $name, seen from the folder $(pwd | plain)"
    fi
}

# Status 4: nothing, or a front of what was due.
tell_write_fault() {
    here=$(pwd | plain)
    if [ "$mode" = convert ]; then
        for name in vdown.vhd vdown.map.json; do
            if [ -d "$name" ]; then
                say "$name in $here is a folder: convert writes a file of that name, so remove it or go to another folder"
                return 0
            elif [ -e "$name" ] && [ ! -w "$name" ]; then
                say "$name in $here may not be written: remove it or go to another folder"
                return 0
            elif [ ! -e "$name" ] && [ ! -w . ]; then
                say "$name can't be made in $here, which may not be written: call vdown in a folder that you may write"
                return 0
            fi
        done
        say "vdown.vhd or vdown.map.json in $here, or standard output, can't be written whole: make room on the disk and call it again; what stands there now is no design"
    else
        say "standard output can't be written: make room on the disk that it goes to, or read the pipe to its end"
    fi
}

# Status 6: `limit NAME NUMBER`.
tell_limit() {
    case $said in
        'limit files '*) say "more than 64 files are named: put several into one, in their order: cat a.vhd b.vhd >all.vhd" ;;
        'limit input '*) say "the files have more than 8388608 bytes (8 MiB) in all: name fewer, or cut long tables out of them" ;;
        'limit tokens '*) say "the files have more than 2000000 words and marks in all: name fewer, or cut long tables out of them" ;;
        'limit nesting '*) say "an expression or a statement stands in more than 200 others: give its inner parts a signal, a constant or a function of their own" ;;
        'limit units '*) say "the files have more than 4096 design units in all: name fewer" ;;
        'limit output '*) say "more than 67108864 bytes (64 MiB) would be printed, most of them warnings: take directives \`warning away" ;;
        *) return 0 ;;
    esac
    say "limits are this program's own: $root/docs/RULES.md, \"Limits\""
}

# What a status means, with the line that the console got.
tell() {
    case $1 in
        1) tell_refusal ;;
        3) tell_read_fault ;;
        4) tell_write_fault ;;
        5) say "memory ran out, and nothing was written: free some, or name fewer files" ;;
        6) tell_limit ;;
    esac
}
