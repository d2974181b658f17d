# Completes what note is given in bash: verbs, options, and the names of the notes that are here.

# The notes of the data folder that begin so.
_note_names() {
    local data=${VIALSHOAL_DATA:-${XDG_DATA_HOME:-$HOME/.local/share}/vialshoal} file
    for file in "$data/notes/$1"*.note; do
        [[ -e $file ]] || continue
        file=${file##*/}
        printf '%s\n' "${file%.note}"
    done
}

# The options of a verb, or those without one.
_note_options() {
    local log='--log --link-file --password-file'
    case $1 in
        cat) echo "--help $log --json --text" ;;
        replace | log) echo "--help $log --json" ;;
        append) echo "--help $log --json --new --form" ;;
        import) echo "--help $log --json --new --form --format" ;;
        export) echo "--help $log --json --format --replace --text --remarks --all" ;;
        changed) echo "--help $log --json --since --until" ;;
        remarks) echo '--help --json --open --author --password-file' ;;
        remark | suggest) echo "--help $log --json --at --on" ;;
        reply | resolve | reopen | reject | revise | withdraw) echo "--help $log --json" ;;
        accept) echo "--help $log --json --anyway" ;;
        history) echo "--help $log --json --at" ;;
        list | search | check | rename) echo '--help --json' ;;
        delete) echo '--help --json --yes' ;;
        sync) echo '--help --json --every --password-file' ;;
        install | uninstall) echo '--help --prefix' ;;
        relay)
            echo '--help --listen --url --log --password-file --certificate --key --origin --forwarded --note-bytes --entries-a-second'
            echo '--new-notes-an-hour --connections --digests --write-page'
            ;;
        web) echo "--help $log --no-browser --new --form" ;;
        renew) echo "--help $log --fresh --without --yes --form" ;;
        recover) echo "--help $log --lost" ;;
        open) echo "--help $log --print --new --form" ;;
        engine | link) echo "--help $log" ;;
        *) echo "--help $log --print --new --lost --fresh --without --yes --no-browser --form --version" ;;
    esac
}

_note() {
    local word=${COMP_WORDS[COMP_CWORD]} before=${COMP_WORDS[COMP_CWORD - 1]} verb='' offered=''
    local verbs='accept append cat changed check delete engine export history import install link list log open recover reject relay remark'
    verbs+=' remarks rename renew reopen replace reply resolve revise search suggest sync uninstall web withdraw'
    [[ $COMP_CWORD -gt 1 ]] && verb=${COMP_WORDS[1]}
    COMPREPLY=()
    case $before in
        --link-file | --password-file | --certificate | --key)
            mapfile -t COMPREPLY < <(compgen -f -- "$word")
            return
            ;;
        --prefix | --write-page)
            mapfile -t COMPREPLY < <(compgen -d -- "$word")
            return
            ;;
        --format)
            offered='text critic'
            [[ $verb == export ]] && offered+=' html note'
            mapfile -t COMPREPLY < <(compgen -W "$offered" -- "$word")
            return
            ;;
        --since)
            mapfile -t COMPREPLY < <(compgen -W 'looked' -- "$word")
            return
            ;;
        --log | --at | --on | --author | --until | --without | --every | --form | --text) return ;;
        --listen | --url | --origin | --note-bytes | --entries-a-second | --new-notes-an-hour | --connections) return ;;
        *)
            case $word,$verb in
                -*) offered=$(_note_options "$verb") ;;
                *,'') offered="$verbs $(_note_names "$word")" ;;
                *,install | *,uninstall | *,list | *,search | *,relay) ;;
                *,rename | *,remark | *,suggest | *,reply | *,resolve | *,reopen | *,accept | *,reject | *,revise | *,withdraw)
                    [[ $COMP_CWORD -eq 2 ]] && offered=$(_note_names "$word")
                    ;;
                *) offered=$(_note_names "$word") ;;
            esac
            ;;
    esac
    mapfile -t COMPREPLY < <(compgen -W "$offered" -- "$word")
    # What follows a note's name may be a file.
    case $verb,$COMP_CWORD in
        import,*[13579] | export,[3-9] | recover,*) [[ $word == -* ]] || mapfile -t COMPREPLY < <(compgen -f -- "$word") ;;
    esac
}

complete -o filenames -F _note note
