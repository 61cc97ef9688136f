# What the scripts share that start servers of the built program. Sourced, with `top` the repository and `room` a folder:
# what the server NAME prints goes to $room/NAME.out, and `pids` has its process while it runs.
# shellcheck shell=bash
# shellcheck disable=SC2154

PATIENCE=3600 # seconds for whatever is waited for, before it counts as what hangs
declare -A pids=()

# A port of loopback that is free, as are the ones behind it where more than one is asked for.
free_port() {
    PYTHONPATH=$top/bench python3 -Bc 'import processes, sys; print(processes.port_row(int(sys.argv[1])))' "${1:-1}"
}

# The first line that the server has printed.
first_line() {
    head -n 1 "$room/$1.out"
}

# Waits until the server has printed a line. Fails where it ends before, or takes too long.
wait_for_line() {
    local end=$((SECONDS + PATIENCE))
    until [[ -s $room/$1.out ]]; do
        kill -0 "${pids[$1]}" 2>/dev/null || [[ -s $room/$1.out ]] || return 1
        ((SECONDS < end)) || return 1
        sleep 0.05
    done
}

# Waits until the server listens. Fails where it says something else, or nothing.
listens() {
    wait_for_line "$1" && [[ $(first_line "$1") == listening ]]
}

# Ends the server NAME by a signal, TERM where none is named.
stop_server() {
    kill -"${2:-TERM}" "${pids[$1]}" 2>/dev/null || true
    wait "${pids[$1]}" 2>/dev/null || true
    unset "pids[$1]"
}

stop_all() {
    local name
    for name in "${!pids[@]}"; do
        stop_server "$name" KILL
    done
}
