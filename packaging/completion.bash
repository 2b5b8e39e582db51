# Completion of the commands and options of hole for bash.
_hole() {
    local word=${COMP_WORDS[COMP_CWORD]} choices=
    case $COMP_CWORD:${COMP_WORDS[1]}:${COMP_WORDS[COMP_CWORD - 1]}:$word in
    1:*) choices='serve check replay help --help --version' ;;
    *:serve:--listen:* | *:serve:--requests:* | *:serve:--clients-per-address:* | *:serve:--crawl-memory:* | *:serve:--fetch-*:*) ;;
    *:serve:--log:* | *:serve:--list-found:* | *:serve:--aliases:* | *:check:--aliases:*) mapfile -t COMPREPLY < <(compgen -f -- "$word") && return ;;
    *:serve:*:-*) choices='--listen --requests --clients-per-address --log --progress --crawl-memory --fetch-timeout --fetch-pause --list-found --leave-out --aliases --help' ;;
    *:check:*:-*) choices='--listen --all --strict --leave-out --aliases --help' ;;
    *:replay:*:-*) choices='--help' ;;
    *:serve:* | *:check:*) mapfile -t COMPREPLY < <(compgen -f -X '!*.toml' -- "$word"; compgen -d -- "$word") && return ;;
    esac
    mapfile -t COMPREPLY < <(compgen -W "$choices" -- "$word")
}
complete -o filenames -F _hole hole
