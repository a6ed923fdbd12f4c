# Read by `.ci/run`, `tools/install`, `tools/uninstall` and `tools/gate/try_install`: the record of a gate. It is a file beside the program
# that the gate passed, and says what was passed, of which commit, by which toolchain, and where.

# The digest of the program $1.
digest_of() {
    sha256sum <"$1" | cut -d ' ' -f 1
}

# Names the record beside the program $1.
record_of() {
    echo "${1%/*}/gate.txt"
}

# Whether the record beside the program $1 is of this program, and of none that was built before or after it.
has_record() {
    grep -qsxF "program sha256 $(digest_of "$1")" "$(record_of "$1")"
}
