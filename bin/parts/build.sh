# Proves the crates that a program stands on and builds it, for bin/house and bin/desk. The variable main has the crate
# of the program.
main=${main:-house_cli}

# The kits with which this state was proved.
kits='rattle-kit-13f'
record=$here/crates/$main/out/$main.made

# ------------------------------------------------------------------------------------------- whether it has to be

# One checksum of all that the program is made of.
sources_sum() {
    (cd "$here" && find crates crates.txt HANDLES -path '*/out' -prune -o -type f \
        \( -name '*.rt' -o -name '*.antt' -o -name crates.txt -o -name HANDLES \) -print | LC_ALL=C sort \
        | tr '\n' '\0' | xargs -0 sha256sum | sha256sum | cut -c 1-64)
}

file_sum() {
    sha256sum <"$1" | cut -c 1-64
}

# Notes beside the program of which sources it was made: by their checksum $1.
keep_record() {
    printf '%s %s %s\n' "$1" "$(file_sum "$program")" "$(rt version 2>/dev/null || echo unknown)" >"$record.$$" \
        && mv "$record.$$" "$record"
}

# By content and not by times, so that a copied folder with its program is not built again.
is_current() {
    [ -x "$program" ] && [ -r "$record" ] && read -r of_sources of_program _ <"$record" \
        && [ "$of_sources" = "$(sources_sum)" ] && [ "$of_program" = "$(file_sum "$program")" ]
}

# ---------------------------------------------------------------------------------------------- what stands above

crate_lines() {
    sed -e 's/#.*//' -e 's/ staticlib:/:/' -e '/^ *$/d' "$here/crates.txt"
}

# The crates of the repository that the program stands on, and itself, lowest first.
crates_below() {
    crate_lines | awk -v main="$main" '
        { name = $1; sub(/:$/, "", name); listed[name]
          for (i = 2; i <= NF; i++) below[name] = below[name] " " $i }
        function visit(it,    parts, count, i) {
            if (it in seen || !(it in listed)) return
            seen[it]
            count = split(below[it], parts, " ")
            for (i = 1; i <= count; i++) visit(parts[i])
            print it
        }
        END { visit(main) }'
}

# Whether each of these crates, lowest first, stands on the one before it, so that no two can be proved side by side.
is_chain() {
    crate_lines | awk -v names="$*" '
        { name = $1; sub(/:$/, "", name)
          for (i = 2; i <= NF; i++) below[name] = below[name] " " $i }
        function stands_on(it, other,    parts, count, i) {
            count = split(below[it], parts, " ")
            for (i = 1; i <= count; i++) if (parts[i] == other) return 1
            for (i = 1; i <= count; i++) if (stands_on(parts[i], other)) return 1
            return 0
        }
        END {
            count = split(names, chain, " ")
            for (i = 2; i <= count; i++) if (!stands_on(chain[i], chain[i - 1])) exit 1
        }'
}

# As many crates side by side as there are processors, and 2 GB of free memory for each.
side_by_side() {
    found=$(nproc 2>/dev/null) || found=1
    room_for=$(awk '/^MemAvailable:/ { print int($2 / 2000000) }' /proc/meminfo 2>/dev/null)
    [ -n "$room_for" ] && [ "$room_for" -lt "$found" ] && found=$room_for
    [ "$found" -ge 1 ] || found=1
    echo "$found"
}

give_up() {
    say "the program could not be built: $1"
    exit 70
}

# Says at once what would stop a build after minutes.
look_first() {
    command -v rt >/dev/null 2>&1 || give_up "the toolchain's command \`rt\` is not on the path (CONTRIBUTING.md, \"The toolchain\")"
    for name in $crates; do
        folder=$here/crates/$name
        [ ! -d "$folder/out" ] || folder=$folder/out
        if ! (: >"$folder/.house-$$") 2>/dev/null; then
            give_up "this checkout cannot be written to, in $(quoted "$folder"); a copy that can be will do (cp -r)"
        fi
        rm -f "$folder/.house-$$"
    done
    kit=$(rt version 2>/dev/null) || kit=unknown
    case " $kits " in
        *" ${kit%% *} "*) ;;
        *) say "the toolchain is ${kit%% *}, and this state was proved with $kits: a proof may fail for that alone" ;;
    esac
}

# One build at a time: the lock ends with the processes that hold it.
take_turn() {
    command -v flock >/dev/null 2>&1 && (: >>"$here/crates/.building") 2>/dev/null || return 0
    exec 9>>"$here/crates/.building"
    flock -n 9 && return 0
    say "another bin/$called builds in this folder; waiting until it is done"
    flock 9 &
    waiter=$!
    wait "$waiter" || give_up "the turn to build was not given"
    waiter=
}

# ------------------------------------------------------------------------------------------------------- progress

took_file() {
    cache=${XDG_CACHE_HOME:-${HOME:+$HOME/.cache}}
    [ -z "$cache" ] || printf '%s/house/took' "$cache"
}

# How long the last build on this machine took, and of how many crates; nothing where none is known.
last_time() {
    file=$(took_file)
    [ -n "$file" ] && [ -r "$file" ] && read -r seconds proved <"$file" 2>/dev/null \
        && printf '; the last one on this machine took %s min, with %s of them new' "$((seconds / 60))" "$proved"
}

note_time() {
    file=$(took_file)
    [ -z "$file" ] || { mkdir -p "${file%/*}" && printf '%s %s\n' "$1" "$2" >"$file"; } 2>/dev/null
    return 0
}

passed_time() {
    seconds=$(($(date +%s) - begun))
    printf '%s min %s s' "$((seconds / 60))" "$((seconds % 60))"
}

# The crates of which the toolchain has not told the end.
untold() {
    for name in $crates; do
        grep -q "^== $name\$" "$room/all" || printf '%s ' "$name"
    done
}

# Whether each library of which the end was told is proved: it has a stamp then.
are_well() {
    for name in $crates; do
        [ "$name" = "$main" ] || [ -e "$here/crates/$name/out/rlib/stamp" ] || case " $chain" in
            *" $name "*) ;;
            *) return 1 ;;
        esac
    done
}

# Those of them that are not kept from an earlier build either.
left_over() {
    for name in $(untold); do
        stamp=$here/crates/$name/out/rlib/stamp
        if [ ! -e "$stamp" ] \
            || [ -n "$(find "$here/crates/$name" -path '*/out' -prune -o -type f -newer "$stamp" -print -quit)" ]; then
            printf '%s ' "$name"
        fi
    done
}

# Those of them that are at work: their library is begun; of a chain it is the first.
at_work() {
    if [ "$stage" = chain ]; then
        printf '%s' "${left%% *}"
        return
    fi
    for name in $left; do
        out=$here/crates/$name/out/rlib
        [ -d "$out" ] && [ ! -e "$out/stamp" ] && printf '%s ' "$name"
    done
}

# How many functions are checked of the crate at work in the chain, as the toolchain said last, if it said so; at its end
# it says that the crate is proved.
functions_done() {
    awk '/^logic=proved/ { said = "" }
        /^so far: [0-9]+ of [0-9]+ functions checked/ { said = $3 " of " $5 }
        /^checked .*, [0-9]+ of [0-9]+$/ { said = $(NF - 2) " of " $NF }
        END { print said }' "$room/chain"
}

# The crates at work, and what tells that each goes on: the minutes that it took, and in the chain its functions.
at_work_since() {
    for name in $names; do
        [ -e "$room/since-$name" ] || date +%s >"$room/since-$name"
        minutes=$((($(date +%s) - $(cat "$room/since-$name")) / 60))
        checked=
        [ "$stage" != chain ] || checked=$(functions_done)
        printf '%s' " $name$([ "$minutes" = 0 ] || echo " for $minutes min")${checked:+, $checked functions checked}"
    done
}

# How many crates the toolchain has read, which it does before it proves one.
crates_read() {
    grep -c '^only=' "$room/all"
}

# Seconds between two lines on a build that stands at the same crates.
often=20

# Says how far the build is, where other crates are at work, and often enough besides.
tell() {
    names=$(at_work)
    state="$((total - $(echo "$left" | wc -w))) of $total crates proved"
    if [ "$state $names" = "$shown" ] && [ $(($(date +%s) - told_at)) -lt "$often" ]; then
        return
    fi
    shown="$state $names"
    told_at=$(date +%s)
    if [ -n "$names" ]; then
        state="$state, now$(at_work_since)"
    elif [ "$stage" = wide ] && ! grep -q '^== ' "$room/all"; then
        state="$state, reading sources, of $(crates_read) crates so far"
    fi
    say "$state ($(passed_time))"
}

# ------------------------------------------------------------------------------------------------------ the build

# Starts the toolchain in a folder of the checkout, with its output in a file and its input from one: what a shell starts
# aside reads nothing unless it is told from where. What it starts itself ends with it.
begin() {
    (cd "$here/$1" && shift 3 && exec "$@") <"$3" >"$room/$2" 2>&1 &
    maker=$!
}

# All crates side by side, until those that are left stand on one another: then it is stopped, since it would prove
# each of them on one processor. What is under way for longer is waited for.
prove_wide() {
    stage=wide
    # shellcheck disable=SC2046
    is_chain $(untold) && return 0
    begin . all /dev/null rt all check --jobs "$jobs"
    while kill -0 "$maker" 2>/dev/null; do
        before=" $names"
        left=$(left_over)
        tell
        chain=$(untold)
        # shellcheck disable=SC2086
        if [ "$jobs" -gt 1 ] && [ -n "$chain" ] && [ "${before#* "${chain%% *}" }" = "$before" ] && is_chain $chain \
            && are_well; then
            kill "$maker" 2>/dev/null
            wait "$maker" 2>/dev/null
            maker=
            return 0
        fi
        sleep 1 &
        wait $!
    done
    has_failed=no
    wait "$maker" || has_failed=yes
    maker=
    [ "$has_failed" = no ] || lose all "a crate was not proved"
}

# What is left, one after another with all processors for each, and then the program. A run that comes to its end, on the
# stored input, shows that what was built runs.
prove_chain() {
    stage=chain
    : >"$room/chain"
    case $main in
        desk_cli) tried=show ;;
        *) tried=run ;;
    esac
    begin "crates/$main" chain "$here/crates/$main/stdin" rt run --jobs "$jobs" -- "$tried"
    while kill -0 "$maker" 2>/dev/null; do
        left=$(left_over)
        tell
        sleep 1 &
        wait $!
    done
    has_failed=no
    wait "$maker" || has_failed=yes
    maker=
    [ "$has_failed" = no ] || lose chain "a crate was not proved, or the program not linked"
    # A journal that the run of `desk` has made.
    rm -f "$here/crates/$main/journal"
}

lose() {
    tail -n 60 "$room/$1" >&2
    give_up "$2; above is the end of what the toolchain said"
}

build() {
    crates=" $(crates_below | tr '\n' ' ') "
    look_first
    take_turn
    if is_current; then
        exec 9>&-
        return 0
    fi
    room=$(mktemp -d) || give_up "no temporary folder"
    : >"$room/all"
    of_sources=$(sources_sum)
    begun=$(date +%s)
    jobs=$(side_by_side)
    total=$(echo "$crates" | wc -w)
    shown='' names='' told_at=$begun
    new=$(left_over | wc -w)
    say "proving and building the program: $total crates, $new of them new here, up to $jobs side by side$(last_time)"
    say "a first build took 23 minutes on four processors; what was proved is kept, also if this is stopped"
    prove_wide
    prove_chain
    [ -x "$program" ] || give_up "the toolchain left no program"
    keep_record "$of_sources"
    seconds=$(($(date +%s) - begun))
    [ "$seconds" -lt 60 ] || note_time "$seconds" "$new"
    say "built in $(passed_time)"
    rm -rf "$room"
    room=
    exec 9>&-
}
