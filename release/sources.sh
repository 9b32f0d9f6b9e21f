# Sourced by ./dispatch, by .ci/run and by what makes and compares a release, with `root` set. Functions on the crates of the repository, as crates.txt has them.

# Prints crates, and below them those of the repository that they stand on.
crates_of() {
    local -A uses=()
    local -a words found=("$@")
    local line name at
    while IFS= read -r line || [[ -n $line ]]; do
        IFS=$' \t:,' read -r -a words <<< "${line%%#*}"
        if [[ ${#words[@]} -gt 0 ]]; then
            uses[${words[0]}]=${words[*]:1}
        fi
    done < "$root/crates.txt"
    for ((at = 0; at < ${#found[@]}; at++)); do
        for name in ${uses[${found[at]}]-}; do
            if [[ -v uses[$name] && " ${found[*]} " != *" $name "* ]]; then
                found+=("$name")
            fi
        done
    done
    printf '%s\n' "${found[@]}"
}

# Prints the sum of all that decides the bytes of what is built of some crates: the code of these and of those below them, and their lines of
# crates.txt. Definitions and proofs decide no byte.
sum_of_sources() {
    local -a crates folders
    mapfile -t crates < <(crates_of "$@" | LC_ALL=C sort)
    folders=("${crates[@]/#/crates/}")
    (
        cd "$root"
        find "${folders[@]/%//src}" -name '*.rt' -type f -print0 | LC_ALL=C sort -z | xargs -0 sha256sum
        grep -E "^($(IFS='|' && printf '%s' "${crates[*]}"))[ :]" crates.txt | LC_ALL=C sort
    ) | sha256sum | cut -d ' ' -f 1
}

# Whether a file of the folder release/ is built of the present sources, by its line of SOURCES.
is_released() {
    local file=$1
    shift
    [[ -f $root/release/$file && -f $root/release/SOURCES ]] \
        && grep -qxF "$file $(sum_of_sources "$@")" "$root/release/SOURCES"
}

# Prints the crates of crates.txt.
names_of_crates() {
    sed -E 's/#.*//; s/[[:space:]:].*//; /^$/d' "$root/crates.txt" | LC_ALL=C sort
}

# Prints the sum of all that the gate proves and tries of each crate (its files, but for out/ and edits/), and those of
# crates.txt and HANDLES.
sums_of_proved() {
    (
        cd "$root"
        for name in $(names_of_crates); do
            printf '%s  crates/%s\n' "$(sum_of_folder "crates/$name")" "$name"
        done
        sha256sum crates.txt HANDLES
    )
}

sum_of_folder() {
    find "$1" \( -path "$1/out" -o -path "$1/edits" \) -prune -o -type f -print0 | LC_ALL=C sort -z \
        | xargs -0 sha256sum | sha256sum | cut -d ' ' -f 1
}

# Prints the line by which the log of a gate says what it proved.
line_of_proved() {
    printf 'release: the sum of all that was proved and tried is %s\n' "$(sums_of_proved | sha256sum | cut -d ' ' -f 1)"
}

# Prints how many crates a log of `rt ci` says were proved in that run, and how many functions they have.
proved_in() {
    awk '
        /^== / { functions = 0 }
        /^logic=proved / && match($0, / functions=[0-9]+/) { functions = substr($0, RSTART + 11, RLENGTH - 11) }
        /^rt: [a-z0-9_]+ proved$/ { crates++; all += functions }
        END { print crates + 0, all + 0 }
    ' "$1"
}

# Writes release/SHA256SUMS.
sum_files() {
    (
        cd "$root/release"
        shopt -s nullglob
        sha256sum dispatch c/* GATE.* > SHA256SUMS
    )
}
