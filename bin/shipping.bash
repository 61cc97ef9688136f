# What bin/install and bin/release share: which programs stand here proved, how they are built for a target, and what
# belongs where. Sourced, with `top` the repository.
# shellcheck shell=bash
# shellcheck disable=SC2034,SC2154

WIDE=x86-64-v3 # the target of newer processors; the other is the toolchain's default

# What goes under a prefix beside the programs: mode, place, source.
PIECES='644 share/man/man1/express.1 man/express.1
644 share/man/man1/express-drill.1 man/express-drill.1
644 share/man/man1/express-desk.1 man/express-desk.1
644 share/man/man1/express-server.1 man/express-server.1
644 share/man/man5/express.toml.5 man/express.toml.5
644 share/bash-completion/completions/express completions/express.bash
644 share/bash-completion/completions/express-drill completions/express.bash
644 share/bash-completion/completions/express-desk completions/express.bash
644 share/bash-completion/completions/express-server completions/express.bash
644 lib/systemd/system/express-helper.service units/express-helper.service
644 lib/systemd/system/express-leader.service units/express-leader.service
644 lib/systemd/system/express-server.service units/express-server.service
755 lib/express/set-aside units/set-aside
755 lib/express/pair bin/pair
644 share/doc/express/OPERATIONS.md docs/OPERATIONS.md
644 share/doc/express/PRIVACY.md docs/PRIVACY.md
644 share/doc/express/DESK.md docs/DESK.md
644 share/doc/express/FRAMES.md docs/FRAMES.md
644 share/doc/express/DOOR.md docs/DOOR.md
644 share/doc/express/examples/README.md examples/README.md
644 share/doc/express/examples/owner.toml examples/owner.toml
644 share/doc/express/examples/writer.toml examples/writer.toml
644 share/doc/express/examples/reader.toml examples/reader.toml
755 share/doc/express/examples/rest examples/rest
644 share/doc/express/deploy/README.md deploy/README.md
755 share/doc/express/deploy/keys deploy/keys
755 share/doc/express/deploy/sizes deploy/sizes
644 share/doc/express/deploy/helper.toml deploy/helper.toml
644 share/doc/express/deploy/helper.haproxy.cfg deploy/helper.haproxy.cfg
644 share/doc/express/deploy/helper.stunnel.conf deploy/helper.stunnel.conf
644 share/doc/express/deploy/helper.nft deploy/helper.nft
644 share/doc/express/deploy/leader.toml deploy/leader.toml
644 share/doc/express/deploy/leader.haproxy.cfg deploy/leader.haproxy.cfg
644 share/doc/express/deploy/leader.stunnel.conf deploy/leader.stunnel.conf
644 share/doc/express/deploy/client.stunnel.conf deploy/client.stunnel.conf
644 share/doc/express/deploy/torrc.helper deploy/torrc.helper
644 share/doc/express/deploy/torrc.leader deploy/torrc.leader
644 share/doc/express/deploy/onion.haproxy.cfg deploy/onion.haproxy.cfg
755 share/doc/express/deploy/onion-key deploy/onion-key
644 share/doc/express/deploy/server.helper.toml deploy/server.helper.toml
644 share/doc/express/deploy/server.leader.toml deploy/server.leader.toml
644 share/doc/express/deploy/server.helper.stunnel.conf deploy/server.helper.stunnel.conf
644 share/doc/express/deploy/server.leader.stunnel.conf deploy/server.leader.stunnel.conf
644 share/doc/express/deploy/server.torrc.helper deploy/server.torrc.helper
644 share/doc/express/deploy/server.torrc.leader deploy/server.torrc.leader
644 lib/systemd/system/express-link.service units/express-link.service'

# Whether this program stands as it was built, and the sources as they were then.
is_built() {
    [[ -x $1 && -f $1.sources ]] && "$top/.ci/sources-hash" "$1" | cmp -s - "$1.sources"
}

explain_unproved() {
    echo "no proved program of these sources stands here: .ci/run proves them (README.md says how long that takes) and leaves"
    echo "it, with a stamp by .ci/sources-hash"
}

# The program of a crate for a target, where it stands once it is built.
built() {
    local program=$top/crates/$1/out/$1
    [[ $2 == default ]] || program+=-$2
    echo "$program"
}

# Builds a crate's program for a target, where it doesn't stand yet. That of the default is what .ci/run left; for
# another one the crate is proved again over the libraries that .ci/run proved, which takes some minutes.
build() {
    local crate=$1 target=$2 program
    program=$(built "$crate" "$target")
    ! is_built "$program" || return 0
    if [[ $target == default ]]; then
        explain_unproved >&2
        return 1
    fi
    echo "building $crate for the target $target, which takes some minutes" >&2
    "$top/bin/build-for" "$crate" "$target" "$program"
    "$top/.ci/sources-hash" "$program" >"$program.sources"
}

# Copies a piece to its place; a unit gets the places of its programs under this prefix.
put_piece() {
    local mode=$1 source=$2 place=$3 prefix=$4
    sed -E "s#/usr/local/(bin|lib)/express#$prefix/\1/express#" "$top/$source" | install -D -m "$mode" /dev/stdin "$place"
}
