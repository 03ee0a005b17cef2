# The programs of a release, for bin/house and bin/desk. In a release it stands in the place of the part that builds:
# nothing is ever built there.
program=${given:-$here/libexec/$called}

give_up() {
    say "the program could not be started: $1"
    exit 70
}

is_current() {
    [ -x "$program" ]
}

build() {
    give_up "this release has no $(quoted "$program"); unpack it anew"
}

version() {
    printf 'house %s\ntoolchain %s\n' "$(sed -n 's/^commit //p' "$here/PROVED" | cut -c 1-12)" \
        "$(sed -n 's/^kit //p' "$here/PROVED")"
}
