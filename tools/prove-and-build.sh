# Proves and builds a program before its script at the root runs it. The script sets `program`, its name, and `root`, this
# repository's folder, before it sources this file.
# shellcheck shell=bash disable=SC2154

built=$root/target/bin/$program

# Says MESSAGE in the program's name and ends the script with STATUS, or 1.
fail() { # MESSAGE [STATUS]
    printf '%s: %s\n' "$program" "$1" >&2
    exit "${2:-1}"
}

# Ends the script where FILE is none that can be read.
check_file() { # FILE
    [ -e "$1" ] || fail "there is no file '$1'"
    [ ! -d "$1" ] || fail "'$1' is a folder, not a file"
    [ -r "$1" ] || fail "'$1' cannot be read"
}

# Says WHAT is done and the seconds so far: on a terminal over the line before, else on a line of its own where WHAT is new.
shown='' written=''
show() { # WHAT
    local text="$program: $1, $SECONDS s" width
    if [ ! -t 2 ]; then
        [ "$1" = "$shown" ] || printf '%s\n' "$text" >&2
    elif [ "$text" != "$written" ]; then
        # the last column stays free: a line that wraps cannot be written over
        width=$(stty size <&2 2>/dev/null) || width='0 0'
        width=$((${width#* } > 1 ? ${width#* } - 1 : 79))
        printf '\r%-*.*s' "$width" "$width" "$text" >&2
    fi
    shown=$1 written=$text
}

# On a terminal, goes on below the line that `show` wrote.
leave_line() {
    if [ -n "$shown" ] && [ -t 2 ]; then echo >&2; fi
}

# Reads crates.txt: what each crate rests on; and as `needed` the program and what it rests on, in order, which are `left` to prove.
declare -A rests=()
needed=' ' left=' ' total=0
read_crates() {
    local name others listed=()
    while IFS=$': \t' read -r name others || [ -n "$name" ]; do
        case $name in '' | '#'*) continue ;; esac
        rests[$name]=" ${others%%#*} " listed+=("$name")
    done <"$root/crates.txt"
    for name in "${listed[@]}"; do
        [[ " $program${rests[$program]-}" == *" $name "* ]] || continue
        needed+="$name " total=$((total + 1))
    done
    left=$needed
}

# The sum of all that the program is made from: the toolchain, what crates.txt says of its crates, and all that is proved of them.
sum_of_sources() {
    local name part parts=()
    for name in $needed; do
        for part in "crates/$name/"{src,specs,proofs}; do
            [ ! -d "$root/$part" ] || parts+=("$part")
        done
    done
    {
        rt version </dev/null
        for name in $needed; do echo "$name:${rests[$name]}"; done
        (cd "$root" && find "${parts[@]}" -type f -print0 | sort -z | xargs -0 sha256sum)
    } | sha256sum
}

# What `built`.proved holds where the program that is built is the proved one of the sources with this sum.
mark_of() { # SUM
    printf '%s ' "$1" && sha256sum <"$built"
}

# Whether the program that is built is the proved one of the sources as they are.
is_built() {
    [ -x "$built" ] && [ -f "$built.proved" ] && [ "$(<"$built.proved")" = "$(mark_of "$(sum_of_sources)")" ]
}

# Puts the program that rt has built from the sources with this sum, all proved, to its place, if they still have it. One that runs there
# goes on.
put_built() { # SUM
    local made=$root/crates/$program/out/$program
    [ -x "$made" ] && [ "$(sum_of_sources)" = "$1" ] || return
    mkdir -p "$root/target/bin" && rm -f "$built.proved" && cp "$made" "$built.new" && mv -f "$built.new" "$built" &&
        mark_of "$1" >"$built.proved"
}

# Shows the crates under way, which are those left that rest on no other one left and have not failed, and how many are left.
show_progress() {
    local name other names='' count=0
    for name in $left; do
        count=$((count + 1))
        for other in $left; do
            [[ ${rests[$name]} != *" $other "* ]] || continue 2
        done
        [[ $failed == *" $name "* ]] || names+=", $name"
    done
    [ -z "$names" ] || show "proving ${names#, } ($((total - count)) of $total crates proved, $count left)"
}

# Takes the lock of this repository, so that of two runs one proves and builds, and the other finds all done. rt holds it too, so that it
# is free when rt has ended. Where the folder can have no lock, goes on without.
take_lock() {
    exec {lock}<"$root"
    while flock --nonblock --conflict-exit-code 75 "$lock" 2>/dev/null; [ $? -eq 75 ]; do
        [ "$SECONDS" -lt 5 ] || show "waiting for another run, which proves and builds here"
        sleep 0.2
    done
}

# Ends the build with the script, and waits until its processes are gone. They are a session of their own, since most of them would
# ignore Ctrl-C, and when rt ends so do those that it started. No command substitution here: after one bash would go on after a signal.
end_build() {
    leave_line || true
    kill -TERM -- "-${!-}" "${!-}" 2>/dev/null || true
    for _ in {1..50}; do
        ps -s "${!-}" >/dev/null 2>&1 || break
        sleep 0.1
    done
}

# As many crates at a time as RT_JOBS says, or else as there are processors, and as the free memory holds at 3 GB each.
jobs_at_once() {
    local processors memory
    processors=$(nproc)
    memory=$(awk '/^MemAvailable:/ { print int($2 / 3000000) }' /proc/meminfo)
    [ "${memory:-1}" -ge 1 ] || memory=1
    echo "${RT_JOBS:-$((processors < memory ? processors : memory))}"
}

# Proves the program's crates, several at once, and then builds and runs it: rt builds only what is proved, and no other command of rt
# builds a program. The program gets no input, and what it writes goes nowhere.
run_rt() { # JOBS
    cd "$root/crates/$program" || return
    # shellcheck disable=SC2016
    exec setsid sh -c 'rt all check --jobs "$1" && rt run 2>&1 >/dev/null' sh "$1" </dev/null 2>&1
}

# Ends what rt says of a crate. Its crate is proved where rt says so, or where it says nothing but its own lines, since then the crate was
# proved before: it is taken off those left, and nothing is shown. Else what is said is shown at once, where all of it IS_THERE. The program
# itself is left until rt ends.
crate='' failed=' '
end_crate() { # IS_THERE
    if [ -z "$crate" ]; then
        return
    elif [[ $said == *$'\n'logic=proved\ * ]] || ! grep -Eqv '^(== |rt: |$)' <<<"$said"; then
        [ "$crate" = "$program" ] || left=${left/" $crate "/ }
        said='' crate=''
    elif [ "$1" = yes ] || [[ $said == *$'\n'logic=not-proved* ]]; then
        leave_line
        printf '%s' "$said" >&2
        failed+="$crate " said='' crate=''
    fi
}

# Reads what rt says into `said`, as it comes, and notes whether it `ran` the program. Where nothing comes for a moment a proof is under
# way, and that is shown.
watch_build() {
    local part line='' status
    while true; do
        status=0
        IFS= read -r -t 0.3 part <&"$out" || status=$?
        line+=$part
        if [ "$status" -eq 0 ]; then
            case $line in
            '== '*)
                end_crate yes
                crate=${line#== } said=''
                [ "$crate" != summary ] || crate=''
                ;;
            "rt: running out/$program;"*) ran=yes ;;
            esac
            said+=$line$'\n' line=''
        elif [ "$status" -gt 128 ]; then
            end_crate no
            show_progress
        else
            break
        fi
    done
    said+=$line
}

# Proves what the program rests on and builds it, as far as that is still to do. Says nothing where it is all done.
prove_and_build() {
    local lock out sum said='' ran=no
    SECONDS=0
    command -v rt >/dev/null || fail "the Rattle toolchain's rt, which proves and builds the program, is not on the PATH"
    read_crates
    ! is_built || return 0
    [ -x "$built" ] || printf '%s: the first run proves and builds the program, which takes some minutes\n' "$program" >&2
    trap end_build EXIT
    take_lock
    if ! is_built; then
        sum=$(sum_of_sources)
        exec {out}< <(run_rt "$(jobs_at_once)")
        watch_build
    fi
    trap - EXIT
    if [ -n "${sum-}" ]; then
        exec {out}<&-
        if [ "$ran" = no ]; then
            leave_line
            printf '%s' "$said" >&2
            fail 'not proved, so not built'
        fi
        # rt writes the stamp where nothing was changed meanwhile
        if [ ! -f "$root/crates/$program/out/$program.stamp" ] || ! put_built "$sum"; then
            fail 'files were changed while they were proved; run it again'
        fi
    fi
    exec {lock}<&-
    [[ $shown != proving* ]] || show "$total crates proved, target/bin/$program built"
    leave_line
}
