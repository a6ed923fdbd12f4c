# Read by `dsc` and `.ci/run`: what the program `dsc` was built from, so that it needs no new build while nothing changed.
# Who reads this has set `top`, the folder of the repository, and `rt`, the toolchain's command or nothing, their links
# followed.

# shellcheck disable=SC2154
out=$top/crates/dsc/out
program=$out/dsc
built_from=$out/built_from

# Lists the files that the program is built from, with their sizes and times, and last the toolchain's command and its
# name. What builds leave in the folders `out` is none of them.
list_files() {
    find "$top/crates" "$top/crates.txt" ${rt:+"$rt" "${rt%/bin/*}/KIT-ID"} \
        -name out -prune -o ! -type d -printf '%p %s %C@\n' 2>/dev/null
}

# Writes down that the program was built from the files of the list $1, which was made before the build began: a file that
# changed meanwhile makes the lists differ.
note_files() {
    printf '%s\n' "$1" >"$built_from.$$" && mv -f "$built_from.$$" "$built_from"
}

# Whether the program was built from the files that stand here. Where no toolchain is found, the rest of the list decides.
is_current() {
    [ -x "$program" ] && [ -s "$built_from" ] || return 1
    files=$(list_files)
    case $(cat "$built_from") in
    "${files:-none}"*) return 0 ;;
    esac
    return 1
}
