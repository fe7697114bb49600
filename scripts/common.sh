# shellcheck shell=bash
# What ./run, ./build and ./test share: how they speak and end, the kit that they need, and what they say while it proves.
# Sourced where `root` is the repository's folder; `usage` is each script's own.

: "${root:?}"
script=${0##*/}
crates=0           # so many are to be proved
declare -A told=() # those that were said, so that a second run of rt does not say them again
proving=''         # the one whose verdict comes next
began=$SECONDS     # when the last of them was said
shopt -s lastpipe  # what a loop behind a pipe sets is kept

say() {
    echo "$script: $*" >&2
}

fail() { # STATUS WORDS...
    local status=$1
    shift
    say "$@"
    exit "$status"
}

misuse() {
    usage >&2
    exit 2
}

# The proofs were written for the kit of kit.txt. Another one is told and then used, as it checks every proof itself.
need_kit() {
    local wanted found
    wanted=$(<"$root/kit.txt")
    command -v rt >/dev/null || fail 2 "there is no rt on the path: install the Rattle kit, $wanted"
    found=$(rt version) || found=''
    found=${found:-of no version that it tells}
    [ "$found" = "$wanted" ] || say "the kit here is $found, while kit.txt has $wanted: the one that is here checks the proofs anew"
}

# Whether a file is there, and no source is newer.
is_current() { # FILE
    local sources=("$root/crates.txt" "$root"/crates/*/{src,specs})
    compgen -G "$root/crates/*/proofs" >/dev/null && sources+=("$root"/crates/*/proofs)
    [ -f "$1" ] && [ -z "$(find "${sources[@]}" -type f -newer "$1" -print -quit)" ]
}

# Counts the named crates with all that they use. A line of crates.txt uses only crates of the lines above it.
count_crates() { # NAME...
    local wanted=" $* " name needed
    crates=0
    while IFS=: read -r name needed; do
        name=${name%% *} # a static library says so behind its name
        if [[ $wanted == *" $name "* ]]; then
            crates=$((crates + 1))
            wanted+="$needed "
        fi
    done < <(tac "$root/crates.txt")
}

# Runs rt in a crate's folder, which proves what the crate uses first, and says each crate as it is proved. Where rt fails, all that it said
# is shown. A program that rt runs has nothing to read, and may end as it likes: that rt runs it at all tells that it is proved.
prove() { # CRATE RT'S WORD
    local line log='' status=0 runs=''
    (cd "$root/crates/$1" && exec rt "$2" 2>&1 </dev/null) | while IFS= read -r line; do
        log+=$line$'\n'
        tell_crate "$line"
        [[ $line != "rt: running out/$1;"* ]] || runs=yes
    done || status=$?
    [ "$status" -ne 0 ] && [ -z "$runs" ] || return 0
    printf %s "$log" >&2
    return 1
}

# Proves and builds a program, where no gate built it since its sources changed. It gets its time here.
make_program() { # NAME
    local built=$root/crates/$1/out/$1 program=$root/target/bin/$1
    is_current "$built" || prove "$1" run || return 1
    mkdir -p "${program%/*}"
    rm -f "$program"
    install -m 755 "$built" "$program"
}

# Proves and builds the static library.
make_archive() { # NAME
    local archive=$root/target/staticlib/lib$1.a
    prove "$1" lib || return 1
    mkdir -p "${archive%/*}"
    install -m 644 "$root/crates/$1/out/lib$1.a" "$archive"
}

# A crate's modules are told just before its verdict.
tell_crate() { # A LINE OF RT
    if [[ $1 =~ ^crate\ ([a-z_0-9]+):\ modules\  ]]; then
        proving=${BASH_REMATCH[1]}
    fi
    [[ $1 == "logic=proved "* ]] && [ -n "$proving" ] && [ -z "${told[$proving]:-}" ] || return 0
    told[$proving]=said
    say "proved $proving ($((SECONDS - began)) s), ${#told[@]} of $crates"
    began=$SECONDS proving=''
}
