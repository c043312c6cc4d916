# Where the programs stand that `./lif` runs, and whether they are of the sources as they are. `lif` and `lif-prove` read this
# file, once they have set `top`.

# The gate leaves its program here, as every proof by rt does, and takes it away when it begins anew.
gate=$top/crates/lif_cli/out/lif_cli

# So the script keeps what it runs elsewhere: the gate's program, the one of lif-prove, which is for the processor at hand, and
# the one that isn't proved.
kept=$top/out
kept_gate=$kept/lif-proved
kept_unproved=$kept/lif-unproved

. "$top/tools/lifcall.sh"

level=x86-64-v2
if has_third_level; then level=x86-64-v3; fi
kept_level=$kept_gate-$level

# Whether a program is there, and older than none of its sources: those of the crates that crates.txt has up to the program.
is_current() {
    [ -x "$1" ] && [ -z "$(
        cd -- "$top" && find crates.txt $(awk -F : '/^[a-z]/ && $1 !~ / staticlib$/ { print "crates/" $1 } /^lif_cli/ { exit }' crates.txt) \
            -type d \( -name out -o -name must-fail \) -prune -o -type f -newer "$1" -print
    )" ]
}

# Puts a program to where it is kept, whole or not at all.
keep() {
    mkdir -p -- "$kept" && cp -p -- "$1" "$2.$$" && chmod 755 "$2.$$" && mv -f -- "$2.$$" "$2"
}

# Ends where there is no rt.
need_rt() {
    if command -v rt >/dev/null; then return; fi
    say "there is no rt, which builds the program; it is the command of the kit that README.md names"
    say "looked for it in the folders of PATH: ${PATH-}"
    say "to name the kit's folder KIT for one call: PATH=KIT/bin:\$PATH $0 .."
    say "a proved program that was built elsewhere for such a processor is run without rt as $kept_level"
    exit 1
}
