# Completes what note is given in fish: verbs, options, and the names of the notes that are here.

set -l verbs accept append cat changed check delete engine export history import install link list log open recover reject relay remark remarks
set -a verbs rename renew reopen replace reply resolve revise search suggest sync uninstall web withdraw
# Those that name one note, and then no file.
set -l once accept reject remark rename reopen reply resolve revise suggest withdraw

# The notes of the data folder.
function __note_names
    set -l data $VIALSHOAL_DATA
    test -n "$data"; or set data (test -n "$XDG_DATA_HOME"; and echo $XDG_DATA_HOME; or echo $HOME/.local/share)/vialshoal
    for file in $data/notes/*.note
        string replace -r '.*/(.*)\.note$' '$1' -- $file
    end
end

# The words after the command and before the last one.
function __note_has
    set -l words (commandline -opc)
    test (count $words) $argv
end

# Whether the verb is one of these.
function __note_verb
    set -l words (commandline -opc)
    test (count $words) -gt 1; and contains -- $words[2] $argv
end

complete -c note -f
complete -c note -n '__note_has -eq 1' -a "$verbs"
complete -c note -n "__note_has -eq 1; or not __note_verb install uninstall list search recover relay $once" -a '(__note_names)'
complete -c note -n "__note_verb $once; and __note_has -eq 2" -a '(__note_names)'
complete -c note -n '__note_verb import export recover' -F
complete -c note -l help
set -l logged accept append cat changed replace import log export history web renew recover open engine link reject remark reopen reply resolve
set -a logged revise suggest withdraw
set -l scripts accept append cat changed check delete export history import list log reject remark remarks rename reopen replace reply
set -a scripts resolve revise search suggest sync withdraw
for option in log link-file
    complete -c note -n "__note_has -eq 1; or __note_verb $logged" -l $option -r
end
complete -c note -n "__note_has -eq 1; or __note_verb $logged sync remarks" -l password-file -r -F
complete -c note -n "__note_verb $scripts" -l json
complete -c note -n '__note_has -eq 1; or __note_verb append import web open' -l new
complete -c note -n '__note_verb export' -l format -x -a 'text html critic note'
complete -c note -n '__note_verb import' -l format -x -a 'text critic'
complete -c note -n '__note_verb export' -l replace
complete -c note -n '__note_verb export' -l remarks
complete -c note -n '__note_verb export' -l all
complete -c note -n '__note_verb remarks' -l open
complete -c note -n '__note_verb remarks' -l author -x
complete -c note -n '__note_verb remark suggest' -l on -x
complete -c note -n '__note_verb accept' -l anyway
complete -c note -n '__note_verb cat export' -l text -x
complete -c note -n '__note_verb history remark suggest' -l at -x
complete -c note -n '__note_verb changed' -l since -xa looked
complete -c note -n '__note_verb changed' -l until -x
complete -c note -n '__note_verb sync' -l every -x
complete -c note -n '__note_verb install uninstall' -l prefix -r
complete -c note -n '__note_verb relay' -l forwarded
complete -c note -n '__note_verb relay' -l digests
complete -c note -n '__note_verb relay' -l write-page -r
for option in listen url log origin note-bytes entries-a-second new-notes-an-hour connections
    complete -c note -n '__note_verb relay' -l $option -x
end
for option in password-file certificate key
    complete -c note -n '__note_verb relay' -l $option -r -F
end
complete -c note -n '__note_has -eq 1; or __note_verb web' -l no-browser
complete -c note -n '__note_has -eq 1; or __note_verb open' -l print
complete -c note -n '__note_has -eq 1; or __note_verb renew' -l fresh
complete -c note -n '__note_has -eq 1; or __note_verb renew' -l without -x
complete -c note -n '__note_has -eq 1; or __note_verb renew delete' -l yes
complete -c note -n '__note_has -eq 1; or __note_verb recover' -l lost
complete -c note -n '__note_has -eq 1; or __note_verb append import renew web open' -l form -x
complete -c note -n '__note_has -eq 1' -l version
