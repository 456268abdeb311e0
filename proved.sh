# For fit-passes and read-lines, which source this file: `proved NAME WORD..` runs the program NAME with these words. On first use, and after a change
# of the programs, it proves and builds it, which takes some minutes. Needs $top, the folder of this file.
proved() {
    name=$1
    shift
    called=$(basename "$0")
    program=$top/crates/$name/out/$name
    rt=$(command -v rt) || { echo "$called: the Rattle kit's rt is not in PATH" >&2; return 1; }
    # What a program is made of: sources, definitions and proofs, not the data of tests.
    changed=$(find "$top/crates.txt" "$top/crates" -name out -prune -o -type f \( -name '*.rt' -o -name '*.antt' -o -name crates.txt \) -newer "$program" -print 2>/dev/null | head -n 1)
    if [ ! -x "$program" ] || [ -n "$changed" ]; then
        echo "$called: proving and building" >&2
        rm -f "$program.stamp"
        # `rt run` builds what is proved and runs it, here on no words and no input: what that says is left out.
        (cd "$top/crates/$name" && "$rt" check >&2 && "$rt" run >/dev/null 2>&1) </dev/null
        [ -e "$program.stamp" ] || return 1
        touch "$program"
    fi
    # The kit's own C library, which the program is linked with: the machine's may be older.
    lib=$(dirname "$(readlink -f "$rt")")/../toolchain/lib
    if [ -x "$lib/ld-linux-x86-64.so.2" ]; then
        "$lib/ld-linux-x86-64.so.2" --library-path "$lib" "$program" "$@"
    else
        "$program" "$@"
    fi
}
