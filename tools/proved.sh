# How a crate is proved and built with the Rattle kit's rt where that is not done yet, for the scripts beside this file
# that read it behind kit.sh. Each of them runs in the repository and has a function fail, which prints one line and
# stops.

# Has a crate's product proved and built if it is missing or older than a source. For the functions below, crate is the
# name of the crate, and product the file that rt makes.
bring_up_to_date() {
    crate=$1
    product=$2
    need_machine
    is_old || return 0
    need_rt
    await_turn
    # Who waited may find it built.
    if is_old; then build; fi
    exec 9>&-
}

is_old() {
    [ ! -f "$product" ] || [ -n "$(find crates.txt crates/*/src crates/*/specs crates/*/proofs -type f -newer "$product")" ]
}

# One build at a time in this folder, as far as the machine has flock: two would write the same files.
await_turn() {
    { mkdir -p target && true 9>>target/building; } 2>/dev/null || fail "the folder target cannot be written"
    command -v flock >/dev/null 2>&1 || return 0
    exec 9>>target/building
    flock -n 9 || {
        echo "$crate: another build is under way in this folder: waiting for its end" >&2
        flock 9
    }
}

build() {
    count=$(count_crates)
    mark=target/$crate.began
    log=$PWD/target/$crate.log
    touch "$mark" 2>/dev/null || fail "the folder target cannot be written"
    # As measured; crates that are proved already take no time.
    echo "$crate: proving and building $count crates, which takes some $((count * 40)) s on two processors the first time" >&2
    if ! prove; then
        # rt may have built a program whose run then failed: it counts as older than its sources.
        touch -c -t 197001020000 "$product"
        fail "rt all test failed in crates/$crate: $log has what it said"
    fi
    [ -f "$product" ] || fail "rt has not left $product: $log has what it said"
    # What rt had no need to build again counts as new.
    touch -r "$mark" "$product"
}

# How many crates of the repository the product is made of, by crates.txt.
count_crates() {
    NAME=$crate awk '
        function visit(crate,    parts, i, n) {
            if (!(crate in below) || crate in seen) return
            seen[crate] = 1
            count++
            n = split(below[crate], parts, " ")
            for (i = 1; i <= n; i++) visit(parts[i])
        }
        { sub(/#.*/, "") }
        /:/ { crate = $1; sub(/:.*/, "", crate); sub(/[^:]*:/, ""); below[crate] = $0 }
        END { visit(ENVIRON["NAME"]); print count + 0 }' crates.txt
}

# Proves and builds the crate and those below it, and runs it if it is a program.
prove() {
    echo 1 >"$mark.status"
    {
        (cd "crates/$crate" && rt all test) </dev/null 2>&1
        echo $? >"$mark.status"
    } | tee "$log" | tell
    [ "$(cat "$mark.status")" = 0 ]
}

# Of rt's many lines only those that tell how far it is are shown, each as it comes, and which crates failed; the log
# has all of them.
tell() {
    ended=0
    while IFS= read -r line; do
        case $line in
        "== summary") ;;
        "== "*)
            ended=$((ended + 1))
            echo "$crate: $ended of $count, ${line#== }"
            ;;
        "rt: waiting for "* | *": failed ("*")" | *": not run, since "*) printf '%s\n' "$line" ;;
        esac
    done >&2
}
