#!/bin/sh
# two_commits.sh BEFORE AFTER: times books full of tests by the library of two commits, in one program, in five builds as run.sh has them.
# Each library is proved and built from its commit in target/two_commits, some minutes the first time. Both commits need to have this one's
# layout of a game, and tools/static_library.sh: commits for an older kit have not.
set -e
[ $# = 2 ] || { echo "usage: two_commits.sh BEFORE AFTER" >&2; exit 2; }
cd "$(dirname "$0")/.."
folder=$PWD/target/two_commits
mkdir -p "$folder"

# SIDE COMMIT: writes the archive of the call that plays a round, under a name of its own
build() {
    [ -d "$folder/$1/.git" ] || { rm -rf "$folder/$1"; git clone --quiet --shared --no-checkout "$PWD" "$folder/$1"; }
    git -C "$folder/$1" checkout --quiet --detach "$2"
    (cd "$folder/$1" && tools/static_library.sh play_c >"$folder/log" 2>&1) || { cat "$folder/log"; exit 1; }
    objcopy --redefine-sym zulqenat_play="zulqenat_play_$1" "$folder/$1/target/staticlib/libplay_c.a" "$folder/libplay_$1.a"
}

before=$(git rev-parse "$1^{commit}")
after=$(git rev-parse "$2^{commit}")
build before "$before"
build after "$after"
for placement in 1 2 3 4 5; do
    PLACEMENT=$placement cargo build --quiet --release --manifest-path benches/Cargo.toml --features two_commits --bin two_commits
    benches/target/release/two_commits >"$folder/times.$placement"
    echo "build $placement:"
    cat "$folder/times.$placement"
done
echo "before / after, mean, lowest and highest of the five builds:"
awk -v ratio="before / after" -f benches/ranges.awk "$folder"/times.[1-5]
