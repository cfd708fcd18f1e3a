#!/bin/sh
# Builds the archives that the benches link, then compares and times, in five builds that differ in where the linker puts the functions.
# Ends with two tables, of the mean, the lowest and the highest of the five: plain / library for each call that was timed, and kept / by
# value for each whole play.
# With the word compare it only compares, in one build.
set -e
cd "$(dirname "$0")/.."
mkdir -p target
for crate in zulqenat fit_c setup_c order_c store_c load_c play_c round_c; do
    tools/static_library.sh "$crate"
done
# The calls by value have the names of calls on kept games: one program links both, so theirs begin with by_value_ here.
for call in fit_c:fits setup_c:set_up order_c:order store_c:store load_c:load play_c:play round_c:round; do
    objcopy --redefine-sym "zulqenat_${call#*:}=by_value_${call#*:}" "target/staticlib/lib${call%%:*}.a"
done
if [ "$1" = compare ]; then
    cargo build --quiet --release --manifest-path benches/Cargo.toml
    benches/target/release/benches compare
    exit
fi
for placement in 1 2 3 4 5; do
    PLACEMENT=$placement cargo build --quiet --release --manifest-path benches/Cargo.toml
    benches/target/release/benches >target/benches.$placement || { cat target/benches.$placement; exit 1; }
    echo "build $placement:"
    cat target/benches.$placement
done
echo "plain / library, mean, lowest and highest of the five builds:"
awk -v ratio="plain / library" -f benches/ranges.awk target/benches.[1-5]
echo "kept / by value, mean, lowest and highest of the five builds:"
awk -v ratio="kept / by value" -f benches/ranges.awk target/benches.[1-5]
