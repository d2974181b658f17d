# Completes what site_cli is given in bash.
complete -W '--first --count --width --height --help' site_cli
