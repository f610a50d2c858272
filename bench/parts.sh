# What the scripts beside this file share that run a program over copies of the crates.

# copy_parts HERE WORK NAME 'CRATE ..': makes WORK a repository with the named crates and all below them, with the
# libraries that are already built, and with the program HERE/bench/NAME.txt as the crate NAME over them.
copy_parts() {
    mkdir -p "$2/crates/$3/src"
    cp "$1/HANDLES" "$2/"
    python3 - "$1/crates.txt" "$4" "$3" > "$2/crates.txt" <<'END'
import sys

lines = {line.split(":")[0].strip(): line.strip() for line in open(sys.argv[1]) if ":" in line}
wanted, taken = sys.argv[2].split(), {}
while wanted:
    name = wanted.pop()
    if name in lines and name not in taken:
        taken[name] = lines[name]
        wanted += lines[name].split(":")[1].split()
words = {word for line in taken.values() for word in line.replace(":", " ").split()}
print("\n".join([*taken.values(), f"{sys.argv[3]}: {' '.join(sorted(words))}"]))
END
    for crate in $(sed 's/:.*//' "$2/crates.txt"); do
        for part in src specs proofs out/rlib; do
            [ -d "$1/crates/$crate/$part" ] || continue
            mkdir -p "$2/crates/$crate/$part"
            cp -r "$1/crates/$crate/$part/." "$2/crates/$crate/$part/"
        done
    done
    for part in txt proofs; do
        [ -e "$1/bench/$3.$part" ] || continue
        if [ "$part" = txt ]; then cp "$1/bench/$3.txt" "$2/crates/$3/src/main.rt"; else cp -r "$1/bench/$3.proofs" "$2/crates/$3/proofs"; fi
    done
}

# are_built WORK NAME: whether all crates below the program have their libraries.
are_built() {
    for crate in $(sed 's/:.*//' "$1/crates.txt"); do
        [ "$crate" = "$2" ] || [ -d "$1/crates/$crate/out/rlib" ] || return 1
    done
}
