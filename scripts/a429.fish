# Completion of a429 for fish: the commands, and what the words after each may be.
# The lines between the quotes are README's table; scripts/completions --write puts them here.
set -g __a429_table (string split \n -- '
version: prints the version of the program
word HEX: shows a word
labels PROFILE: lists the label table of a profile
show PROFILE REC: shows each word of a recording with its value
forms PROFILE REC: says what each word is to the file transfer
survey PROFILE REC: counts what a recording of any length has
trace PROFILE REC: says what the sink is doing after each word of the transfer
blocks PROFILE REC: lists the attempts to send a block in a recording of any length
sink PROFILE REC: judges the sink of a recording of any length by itself
history PROFILE REC DIR: puts a recording of any length in pieces into DIR
keep PROFILE REC: writes the entries of a recording of any length whose words have the label of the transfer
cut PROFILE REC DIR [MOST]: writes the parts of a recording of any length into DIR
side PROFILE REC LINE OUT [ANSWER]: writes the words of one direction into OUT
import MAP EXPORT OUT: makes a recording of what another program exported
make PROFILE FILE..: writes the recording of a transfer of files in which nothing is lost
pack REC: writes a recording in binary
decide PROFILE REC CERT: finds out whether files crossed
why PROFILE REC: prints the verdict of decide
check PROFILE REC CERT: does the same as decide by a fixed rule alone
verify PROFILE REC CERT: checks a certificate against a recording
series PROFILE DIR: checks the certificates of a recording in parts
extract PROFILE REC CERT DIR: checks a certificate and writes each file that crossed into DIR
units PROFILE REC CERT: checks a certificate and lists the link data units that it loads
picture PROFILE REC CERT FROM TO: draws what happened at the entries FROM to TO
upgrade CERT OUT: writes a certificate of version 1 to OUT as one of version 2
')

# The name that README gives to the word that is being written.
function __a429_what
    set -l words (commandline -opc)
    set -l row (string split ' ' -- (string replace -r ':.*' '' -- (string match -r -- '^'$words[2]'[ :].*' $__a429_table)))
    set -l what $row[(count $words)]
    # (the last word may come again)
    if test -z "$what"; and string match -q '*..' -- $row[-1]
        set what $row[-1]
    end
    echo $what
end

# What it may be.
function __a429_choices
    set -l words (commandline -opc)
    if test (count $words) -eq 1
        string replace -r '^(\w+).*?: ' '$1\t' -- $__a429_table
        return
    end
    switch (__a429_what)
        case PROFILE MAP
            set -l paths (__fish_complete_path (commandline -ct))
            if string match -q -r -- '\.toml(\t|$)' $paths
                set paths (string match -r -- '.*(?:/|\.toml)(?:\t.*)?$' $paths)
            end
            printf '%s\n' $paths
        case REC EXPORT CERT OUT FILE..
            __fish_complete_path (commandline -ct)
        case DIR
            __fish_complete_directories (commandline -ct)
        case LINE
            printf '%s\n' A B
    end
end
complete -c a429 -f -a '(__a429_choices)'
