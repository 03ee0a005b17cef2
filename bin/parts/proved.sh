# What the gate has proved, for .ci/run and bin/release: a file beside the program, with the commit, the kit, the gate's
# last line, when it passed, the checksums of both programs, and how to repeat it. The variable here has the checkout.
proved=$here/crates/house_cli/out/PROVED

# The commit that is checked out, where the checkout has no changes; else nothing.
clean_commit() {
    changes=$(git -C "$here" status --porcelain 2>/dev/null || echo no checkout)
    [ -n "$changes" ] || git -C "$here" rev-parse HEAD
}

# The checksums of both programs, a line each.
program_sums() {
    for name in desk house; do
        printf 'program %s %s\n' "$name" "$(sha256sum <"$here/crates/${name}_cli/out/${name}_cli" | cut -c 1-64)"
    done
}

# Writes it for the commit $1; the gate's last line is $2.
write_proved() {
    {
        printf 'commit %s\n' "$1"
        printf 'kit %s\n' "$(rt version)"
        printf 'gate %s\n' "$2"
        printf 'time %s\n' "$(date -u +%Y-%m-%dT%H:%M:%SZ)"
        program_sums
        printf 'repeat git checkout %s && .ci/run\n' "$1"
    } >"$proved.$$" && mv "$proved.$$" "$proved"
}

# The value of the key $1 in the file $2 of this form.
proved_value() {
    sed -n "s/^$1 //p" "$2"
}
