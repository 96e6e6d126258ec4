# Sourced by bin/program and bin/build-library: prints the path of what is proved, or else of a build without a proof,
# which it makes, once, by the kit's `rt try`. Who sources it sets
#
#     top       the checkout
#     name      the command that is run, for messages: bin/NAME
#     what      what is built: program or library
#     prover    the command that proves and builds it
#     takes     how long a build takes, in words
#     proved    the path of what is proved
#     unproved  the path of the build without a proof
#
# and defines prepare_crate (prints the folder of a program's crate, which is tried), make_build (makes "$made" of the
# module that was caught), answers_well (whether that gives the stored answers) and keep_build (which calls keep).

say() { echo "bin/$name: $*" >&2; }

give_up() {
    say "$@"
    exit 70
}

# Whether this build is there and no source is newer, or was removed since.
is_current() {
    [ -s "$1" ] && [ -z "$(find "$top/crates.txt" "$top"/crates/*/src "$top"/crates/*/specs "$top"/crates/*/proofs \
        -newer "$1" -print -quit 2> /dev/null)" ]
}

find_kit() {
    kit=$(command -v rt) || give_up "there is no Rattle kit on this machine (no \`rt\` on the path), so nothing can be built"
    kit=$(dirname "$(dirname "$(readlink -f "$kit")")")
}

# A kit like this machine's, by links, but for one file: where `rt try` calls clang to compile the program watched by
# AddressSanitizer, the module and the words of that call are caught in the room, and that try ends. The checks that
# rattle puts into a program that it tries stay in.
make_kit() {
    local it
    mkdir -p "$room/kit/bin" "$room/kit/toolchain/bin"
    for it in "$kit"/*; do [ -e "$room/kit/${it##*/}" ] || ln -s "$it" "$room/kit/"; done
    for it in "$kit"/toolchain/*; do [ -e "$room/kit/toolchain/${it##*/}" ] || ln -s "$it" "$room/kit/toolchain/"; done
    for it in "$kit"/toolchain/bin/*; do ln -s "$it" "$room/kit/toolchain/bin/"; done
    for it in "$kit"/bin/*; do ln -s "$it" "$room/kit/bin/"; done
    rm "$room/kit/bin/rt" "$room/kit/bin/rtlib.py" "$room/kit/bin/rattle" "$room/kit/toolchain/bin/clang"
    cp "$kit/bin/rt" "$kit/bin/rtlib.py" "$room/kit/bin/" # They find their kit by where they lie.
    cat > "$room/kit/toolchain/bin/clang" << END
#!/bin/sh
case " \$* " in
    *" -fsanitize=address "*) ;;
    *) exec "$kit/toolchain/bin/clang" "\$@" ;;
esac
for word; do
    shift
    [ "\$word" = -fsanitize=address ] || set -- "\$@" "\$word"
done
/bin/cp module.bc "$room/module.bc" && printf '%s\\n' "\$@" > "$room/words.part" && /bin/mv "$room/words.part" "$room/words"
exit 1
END
    # Beside a try rt has rattle look for names that a check refuses: a hint alone, which takes a processor and a
    # gigabyte.
    printf '#!/bin/sh\ncase " $* " in *" --help "*) exec "%s" "$@" ;; esac\n' "$kit/bin/rattle" > "$room/kit/bin/rattle"
    chmod +x "$room/kit/toolchain/bin/clang" "$room/kit/bin/rattle"
}

# Compiles the module as it would have been compiled, but for the watch, to module.o of the room: at a level, as -O1,
# of a file beside it where one is named, and with more words where there are any.
compile() {
    local level=$1 source=${2-module.bc} words at
    shift $(($# < 2 ? $# : 2))
    mapfile -t words < "$room/words"
    for at in "${!words[@]}"; do
        case ${words[at]} in
            -O0) words[at]=$level ;;
            -o) words[at + 1]="$room/module.o" ;;
            module.bc) words[at]=$source ;;
        esac
    done
    (cd "$room" && ${slowly-} "$kit/toolchain/bin/clang" "${words[@]}" "$@")
}

# Puts a file where it is kept, as old as the sources that it was made of.
keep() {
    cp "$1" "$2.$$" && touch -r "$room/began" "$2.$$" && mv "$2.$$" "$2" && return
    rm -f "$2.$$"
    return 1
}

end_try() {
    [ -z "${builder-}" ] || { kill "$builder" && wait "$builder"; } 2> /dev/null || true
    builder=
}

end_build() {
    end_try
    rm -rf "$room" "${unproved%/*}"/*".$$"
}

# Waits until the module is caught or the try has ended.
wait_for_module() {
    while kill -0 "$builder" 2> /dev/null && [ ! -f "$room/words" ]; do
        [ ! -t 2 ] || printf '\rbin/%s: %s s \033[K' "$name" $((SECONDS - began)) >&2
        sleep 0.2
    done
    [ ! -t 2 ] || printf '\r\033[K' >&2
}

# Why no build was made, as far as the log says.
tell_failure() {
    [ "$(df -P "$room" "$top" | awk 'NR > 1 && $4 < 200000' | wc -l)" = 0 ] \
        || give_up "the disk is full: a build needs 200 MB in ${TMPDIR:-/tmp} and in out/unproved/"
    tail -n 5 "$log" >&2
    if grep -q '^run=ended' "$log"; then
        say "this kit's \`rt try\` compiles in another way than bin/lib/build.sh knows, so its build can't be kept"
    fi
    give_up "no build without a proof could be made; ${way_out-}$prover proves and builds it"
}

# Tries the crate until its module is caught.
catch_module() {
    local crate
    make_kit > "$log" 2>&1 && crate=$(prepare_crate 2>> "$log") || return 1
    (cd "$crate" && TMPDIR="$room" exec "$room/kit/bin/rt" try < /dev/null) >> "$log" 2>&1 9>&- &
    builder=$!
    wait_for_module
    [ -f "$room/words" ] || return 1
    end_try
}

# Makes a build without a proof and keeps it, unless another call has just done so: then it fails.
build() {
    find_kit
    mkdir -p "$top/out/unproved" 2> /dev/null && [ -w "$top/out/unproved" ] \
        || give_up "this checkout can't be written, so no build can be kept in out/unproved/: use a clone of your own"
    exec 9> "$unproved.lock" || give_up "out/unproved/ can't be locked"
    if command -v flock > /dev/null && ! flock -n 9; then
        say "another call is building it; waiting for that"
        flock 9
    fi
    ! is_current "$unproved" || return 1
    local began=$SECONDS
    say "not proved on this machine, so a build without a proof is made first: $takes, once"
    room="${TMPDIR:-/tmp}/$name-unproved.$(echo "$top" | cksum | cut -d' ' -f1)" # This checkout's own.
    rm -rf "$room".* # Whoever holds the lock is alone, so these are left of calls that were killed.
    room=$(mktemp -d "$room.XXXXXX") || give_up "no build can be made in ${TMPDIR:-/tmp}"
    trap end_build EXIT
    trap 'exit 130' INT
    trap 'exit 143' TERM HUP
    made="$room/${unproved##*/}"
    log="$room/log"
    : > "$room/began" # What is built counts as old as this, so a source that changes meanwhile is newer.
    catch_module && { make_build && answers_well && keep_build; } >> "$log" 2>&1 || tell_failure
    trap - EXIT INT TERM HUP
    seconds=$((SECONDS - began))
}

# Where there is a proved one, or none but a proved one will do: prints its path and ends.
use_proved() {
    if is_current "$proved"; then
        echo "$proved"
        exit
    fi
    [ "${1-}" != --proved ] && [ -z "${PROVED_ONLY-}" ] \
        || give_up "not proved on this machine, or a source has changed since; $prover proves and builds it"
}

use_unproved() {
    [ -n "${UNPROVED_OK-}" ] || say "this build is not proved; $prover proves and builds the $what"
    echo "$unproved"
}
