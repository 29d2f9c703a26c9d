# Read by desk-run, tools/archive and web/: the kit, what a crate is made of, and a quiet build that is done once.
# The caller sets `me`, its own name for messages, and `top`, the top of the repository.
#
# A build leaves a stamp, target/run/WHAT.built, with the kit's identity and the kind of machine. It is done again when the stamp says
# another kit or machine, or when a source is newer than the stamp.
machine=$(uname -m)
room=$top/target/run

say() { printf '%s: %s\n' "$me" "$*" >&2; }
die() { # STATUS WORDS..
    status=$1
    shift
    say "$@"
    exit "$status"
}

# Sets rt, the kit's command, kit, its folder, and tools, its compiler's.
find_kit() {
    rt=$(command -v rt) || rt=''
    for each in "${RATTLE_HOME:+$RATTLE_HOME/bin/rt}" /opt/rattle/bin/rt; do
        [ -n "$rt" ] || [ -z "$each" ] || [ ! -x "$each" ] || rt=$each
    done
    if [ -z "$rt" ]; then
        say "no rt. It is the command of the Rattle kit, which proves and compiles what is in crates/."
        say "it was looked for on PATH, in \$RATTLE_HOME/bin (RATTLE_HOME is ${RATTLE_HOME:-not set}) and in /opt/rattle/bin"
        exit 2
    fi
    kit=$(dirname "$(dirname "$(readlink -f "$rt")")")
    # a script that stands for rt: the kit says where its guide is, at the top of its folder
    [ -f "$kit/KIT-ID" ] || kit=$(dirname "$("$rt" doc)")
    tools=$kit/toolchain
    [ "$machine" = x86_64 ] && [ -d "$tools" ] || die 2 "the kit at $kit has nothing for this machine, $machine"
    identity="$(cat "$kit/KIT-ID") on $machine"
}

# The crates of the repository that a crate is made of, itself among them: its own line of crates.txt, and theirs.
parts_of() { # NAME
    awk -v want="$1" '
        { sub(/#.*/, ""); i = index($0, ":"); if (!i) next
          split(substr($0, 1, i - 1), said, " "); deps[said[1]] = substr($0, i + 1) }
        function visit(n,    a, k, m) {
            if (!(n in deps) || seen[n]++) return
            print n
            m = split(deps[n], a, " ")
            for (k = 1; k <= m; k++) visit(a[k])
        }
        END { visit(want) }' "$top/crates.txt"
}

# Has WHAT, a file made of the crate NAME, been built by this kit, and is it newer than its sources?
fresh() { # WHAT NAME FILE
    stamp=$room/$1.built
    [ -f "$3" ] && [ -f "$stamp" ] && [ "$(cat "$stamp")" = "$identity" ] || return 1
    folders=$(parts_of "$2" | sed 's|.*|crates/&/src crates/&/specs crates/&/proofs|')
    # a folder is newer when a file of it has come or gone
    # shellcheck disable=SC2086
    [ -z "$(cd "$top" && find crates.txt $folders -newer "$stamp" 2>/dev/null | head -n 1)" ]
}

# Builds WHAT, a file made of the crate NAME, by the words given, unless it is fresh. The prover's text goes to a file.
build_once() { # WHAT NAME FILE WORDS..
    what=$1 name=$2 file=$3
    shift 3
    fresh "$what" "$name" "$file" && return
    mkdir -p "$room" || exit 2
    log=$room/$what.log
    (
        # one build at a time, since all write to the same crates; another may have done the work while this one waited
        if command -v flock >/dev/null; then
            exec 8>"$room/lock"
            flock -n 8 || { say "waits for another build in this folder" && flock 8; }
        fi
        fresh "$what" "$name" "$file" && exit 0
        left=0
        # what a check keeps of a crate lies in its out/
        for part in $(parts_of "$name"); do [ -d "$top/crates/$part/out" ] || left=$((left + 1)); done
        if [ "$left" -gt 1 ]; then takes="some minutes, less where this machine has proved them before ($left crates)"; else takes='about a minute'; fi
        say "proves and builds $what, once: $takes; the prover's text goes to ${log#"$top"/}"
        rm -f "$room/$what.built"
        echo "$identity" >"$room/$what.new"
        if (cd "$top" && "$@") </dev/null >"$log" 2>&1 8>&-; then mv "$room/$what.new" "$room/$what.built"; else exit 1; fi
    ) && [ -f "$file" ] && return
    say "$what was not built. The last lines of the prover's text, which is whole in $log:"
    tail -n 5 "$log" >&2
    exit 1
}
