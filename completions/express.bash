# Completion of express, express-drill, express-desk and express-server for bash.

_express_commands='serve keep client carry replay batch cloak mill'

# Everything but the command comes on standard input, so behind `<` and `>` stand files, and behind the command nothing.
_express() {
    local word=${COMP_WORDS[COMP_CWORD]} before=${COMP_WORDS[COMP_CWORD - 1]}
    COMPREPLY=()
    if [[ $before == [\<\>]* ]]; then
        mapfile -t COMPREPLY < <(compgen -f -- "$word")
    elif ((COMP_CWORD == 1)); then
        mapfile -t COMPREPLY < <(compgen -W "$_express_commands" -- "$word")
    fi
}

_express_desk_commands='send discard open box card letters retire forget status resume adopt help'

# Words; behind those that have a file, and behind `--desk` and `--out`, files.
_express_desk() {
    local word=${COMP_WORDS[COMP_CWORD]} before=${COMP_WORDS[COMP_CWORD - 1]}
    COMPREPLY=()
    if [[ $before == [\<\>]* || $before == --desk || $before == --out || $before == open ]] ||
        [[ " ${COMP_WORDS[*]:1:COMP_CWORD-1} " == *' send '* ]]; then
        mapfile -t COMPREPLY < <(compgen -f -- "$word")
    elif [[ $word == -* ]]; then
        mapfile -t COMPREPLY < <(compgen -W '--desk --out --proxy --until --now' -- "$word")
    elif ((COMP_CWORD == 1)) || [[ ${COMP_WORDS[COMP_CWORD - 2]} == --desk || ${COMP_WORDS[COMP_CWORD - 2]} == --proxy ]]; then
        mapfile -t COMPREPLY < <(compgen -W "$_express_desk_commands" -- "$word")
    fi
}

_express_server_commands='run status check owner'

# Each command has a file behind it, and `owner` a lane, for which nothing is offered.
_express_server() {
    local word=${COMP_WORDS[COMP_CWORD]}
    COMPREPLY=()
    if ((COMP_CWORD == 2)) && [[ " $_express_server_commands " == *" ${COMP_WORDS[1]} "* ]]; then
        mapfile -t COMPREPLY < <(compgen -f -- "$word")
    elif ((COMP_CWORD == 1)); then
        mapfile -t COMPREPLY < <(compgen -W "$_express_server_commands --help --version" -- "$word")
    fi
}

# The program, and then a port, for which nothing is offered.
_express_drill() {
    COMPREPLY=()
    if ((COMP_CWORD == 1)); then
        mapfile -t COMPREPLY < <(compgen -c -- "${COMP_WORDS[1]}")
    fi
}

complete -o filenames -F _express express
complete -o filenames -F _express_desk express-desk
complete -o filenames -F _express_server express-server
complete -o filenames -F _express_drill express-drill
