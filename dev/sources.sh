# shellcheck shell=sh disable=SC2154
# What scripts ask of the sources. It is read by those that have set `root`, the top of the checkout, and not called.

# The crates that the program is made of, by crates.txt, in the order of their names.
crates_of_program() {
    awk '
        /^[^#]/ {
            name = $0
            sub(/[ :].*/, "", name)
            below[name] = $0
            sub(/^[^:]*:/, "", below[name])
        }
        function need(name, parts, number, at) {
            if (!(name in below) || name in needed) return
            needed[name] = 1
            print name
            number = split(below[name], parts, " ")
            for (at = 1; at <= number; at++) need(parts[at])
        }
        END { need("xetra_day") }
    ' "$root/crates.txt" | LC_ALL=C sort
}

# A digest of what the program is made of: of its crates the lines of crates.txt, the sources and the definitions. How they are proved
# makes no other program, and the gate compares its bytes. Fails where it can't be had.
digest_of_sources() {
    (
        cd -- "$root" || exit 1
        names=$(crates_of_program)
        lines=$(for name in $names; do grep -e "^${name}[ :]" crates.txt; done)
        sums=$(
            for name in $names; do
                find "crates/$name" -name out -prune -o -name proofs -prune -o -type f \( -path '*/src/*' -o -path '*/specs/*' \) -print
            done | LC_ALL=C sort | xargs -d '\n' sha256sum --
        ) || exit 1
        [ -n "$sums" ] && printf '%s\n' "$lines" "$sums" | sha256sum | cut -d ' ' -f 1
    )
}

has_rt() {
    command -v rt >/dev/null 2>&1
}

# What `rt version` prints. It prints the kit's file KIT-ID, which takes no time to read.
kit_version() {
    id=$(dirname -- "$(readlink -f -- "$(command -v rt)")")/../KIT-ID
    if [ -r "$id" ]; then
        cat -- "$id"
    else
        rt version
    fi
}

# The version of the program, by its sources.
program_version() {
    sed -n 's/^const VERSION: &str = "\(.*\)";$/\1/p' "$root/crates/xm_program/src/command_lines.rt"
}

sha256_of() {
    sha256sum -- "$1" | cut -d ' ' -f 1
}

# What a file of lines `KEY VALUE` says of a key.
value_of() {
    sed -n "s/^$2 //p" "$1"
}
