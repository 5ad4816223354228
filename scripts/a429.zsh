#compdef a429
# Completion of a429 for zsh: the commands, and what the words after each may be. It is the file _a429 of a folder in $fpath.
# The lines between the quotes are README's table; scripts/completions --write puts them here.
_a429() {
    local table='
version: prints the version of the program
word HEX: shows a word
labels PROFILE: lists the label table of a profile
show PROFILE REC: shows each word of a recording with its value
forms PROFILE REC: says what each word is to the file transfer
survey PROFILE REC: counts what a recording of any length has
trace PROFILE REC: says what the sink is doing after each word of the transfer
blocks PROFILE REC: lists the attempts to send a block in a recording of any length
sink PROFILE REC: judges the sink of a recording of any length by itself
history PROFILE REC DIR: puts a recording of any length in pieces into DIR
keep PROFILE REC: writes the entries of a recording of any length whose words have the label of the transfer
cut PROFILE REC DIR [MOST]: writes the parts of a recording of any length into DIR
side PROFILE REC LINE OUT [ANSWER]: writes the words of one direction into OUT
import MAP EXPORT OUT: makes a recording of what another program exported
make PROFILE FILE..: writes the recording of a transfer of files in which nothing is lost
pack REC: writes a recording in binary
decide PROFILE REC CERT: finds out whether files crossed
why PROFILE REC: prints the verdict of decide
check PROFILE REC CERT: does the same as decide by a fixed rule alone
verify PROFILE REC CERT: checks a certificate against a recording
series PROFILE DIR: checks the certificates of a recording in parts
extract PROFILE REC CERT DIR: checks a certificate and writes each file that crossed into DIR
units PROFILE REC CERT: checks a certificate and lists the link data units that it loads
picture PROFILE REC CERT FROM TO: draws what happened at the entries FROM to TO
upgrade CERT OUT: writes a certificate of version 1 to OUT as one of version 2
'
    local -a rows=(${(f)table}) row commands
    if (( CURRENT == 2 )); then
        commands=(${rows/(#m)[ :]*/:${MATCH#*: }})
        _describe command commands
        return
    fi
    # (the command, then the words that it takes, by README's names)
    row=(${=${(M)rows:#${(b)words[2]}[ :]*}%%:*})
    local what=${row[CURRENT - 1]}
    # (the last word may come again)
    if [[ -z $what && ${row[-1]} == *.. ]]; then what=${row[-1]}; fi
    case $what in
        PROFILE|MAP) _files -g '*.toml(-.)' ;;
        REC|EXPORT|CERT|OUT|FILE..) _files ;;
        DIR) _files -/ ;;
        LINE) compadd A B ;;
        *) _message "${what:-no more words}" ;;
    esac
}
_a429 "$@"
