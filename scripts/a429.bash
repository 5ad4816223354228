# Completion of a429 for bash: the commands, and what the words after each may be.
# The lines between the quotes are README's table; scripts/completions --write puts them here.
_a429_table='
version: prints the version of the program
word HEX: shows a word
labels PROFILE: lists the label table of a profile
show PROFILE REC: shows each word of a recording with its value
forms PROFILE REC: says what each word is to the file transfer
survey PROFILE REC: counts what a recording of any length has
trace PROFILE REC: says what the sink is doing after each word of the transfer
blocks PROFILE REC: lists the attempts to send a block in a recording of any length
sink PROFILE REC: judges the sink of a recording of any length by itself
history PROFILE REC DIR: puts a recording of any length in pieces into DIR
keep PROFILE REC: writes the entries of a recording of any length whose words have the label of the transfer
cut PROFILE REC DIR [MOST]: writes the parts of a recording of any length into DIR
side PROFILE REC LINE OUT [ANSWER]: writes the words of one direction into OUT
import MAP EXPORT OUT: makes a recording of what another program exported
make PROFILE FILE..: writes the recording of a transfer of files in which nothing is lost
pack REC: writes a recording in binary
decide PROFILE REC CERT: finds out whether files crossed
why PROFILE REC: prints the verdict of decide
check PROFILE REC CERT: does the same as decide by a fixed rule alone
verify PROFILE REC CERT: checks a certificate against a recording
series PROFILE DIR: checks the certificates of a recording in parts
extract PROFILE REC CERT DIR: checks a certificate and writes each file that crossed into DIR
units PROFILE REC CERT: checks a certificate and lists the link data units that it loads
picture PROFILE REC CERT FROM TO: draws what happened at the entries FROM to TO
upgrade CERT OUT: writes a certificate of version 1 to OUT as one of version 2
'

# The words that a command takes, by README's names, with the command first.
_a429_row() {
    local row
    while read -r row; do
        row=${row%%:*}
        [ "${row%% *}" = "$1" ] && echo "$row"
    done <<<"$_a429_table"
}

_a429() {
    local word=${COMP_WORDS[COMP_CWORD]} place=$((COMP_CWORD - 1)) row what
    if [ "$place" -eq 0 ]; then
        mapfile -t COMPREPLY < <(compgen -W "$(sed 's/[ :].*//' <<<"$_a429_table")" -- "$word")
        return
    fi
    read -r -a row <<<"$(_a429_row "${COMP_WORDS[1]}")"
    what=${row[place]-}
    # (the last word may come again)
    if [[ -z $what && ${row[*]} == *.. ]]; then what=FILE..; fi
    COMPREPLY=()
    case $what in
        PROFILE | MAP) mapfile -t COMPREPLY < <(compgen -d -- "$word"; compgen -f -X '!*.toml' -- "$word" || compgen -f -- "$word") ;;
        REC | EXPORT | CERT | OUT | FILE..) mapfile -t COMPREPLY < <(compgen -f -- "$word") ;;
        DIR) mapfile -t COMPREPLY < <(compgen -d -- "$word") ;;
        LINE) mapfile -t COMPREPLY < <(compgen -W "A B" -- "$word") ;;
    esac
    [ "$what" = LINE ] || compopt -o filenames
}
complete -F _a429 a429
