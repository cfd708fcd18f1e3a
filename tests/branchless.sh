#!/bin/sh
# The relation test, compiled as the static library is: no instruction of it jumps, conditionally or not, loops or calls. First the search
# for such instructions is tried on a C function that branches and on one that calls.
set -e
cd "$(dirname "$0")/.."
mkdir -p target

# FILE FUNCTION: the function's instructions, a line each
instructions() {
    objdump --disassemble="$2" --no-show-raw-insn "$1" | sed -n 's/^ *[0-9a-f]*:\t//p'
}

# FILE FUNCTION: those that may go on elsewhere than at the next, but for the return
leaving() {
    instructions "$1" "$2" | grep -wE 'l?j[a-z]+|loop[a-z]*|l?call[a-z]*|xbegin' || true
}

cc -O0 -c -x c -o target/branching.o - <<'C'
int branches(int v, int n) { if (v < n) return 1; return 0; }
int calls(int v, int n) { return branches(v, n); }
C
leaving target/branching.o branches | grep -q '^j[^m]' || { echo "a conditional jump is not seen"; exit 1; }
leaving target/branching.o calls | grep -q '^call' || { echo "a call is not seen"; exit 1; }

tools/static_library.sh relation_c
library=target/staticlib/librelation_c.a
count=$(instructions $library zulqenat_relation | wc -l)
[ "$count" -gt 0 ] || { echo "zulqenat_relation is not in the library"; exit 1; }
found=$(leaving $library zulqenat_relation)
[ -z "$found" ] || { printf 'zulqenat_relation branches or calls:\n%s\n' "$found"; exit 1; }
echo "zulqenat_relation: $count instructions, none of which jumps, loops or calls"
