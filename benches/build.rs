//! Links the static libraries that `tools/static_library.sh` writes.

use std::path::Path;

/// The crates with the exported calls. The calls for C are in one archive, as they are for a program. Each call by value has an archive of
/// its own: a function with two callers would not be compiled into either.
const CRATES: [&str; 8] = [
    "zulqenat", "fit_c", "setup_c", "order_c", "store_c", "load_c", "play_c", "round_c",
];

/// The call that plays a round, as it is in each of two commits.
const SIDES: [&str; 2] = ["play_before", "play_after"];

/// Has the linker put the functions in another order for each number in the variable PLACEMENT, since where code lies moves its times.
fn place() {
    println!("cargo:rerun-if-env-changed=PLACEMENT");
    if let Ok(number) = std::env::var("PLACEMENT") {
        println!("cargo:rustc-link-arg=-Wl,--shuffle-sections=.text*={number}");
    }
}

/// Links the archives of these names in a folder, which a script writes.
fn link(folder: &Path, names: &[&str], script: &str) {
    println!("cargo:rustc-link-search=native={}", folder.display());
    for name in names {
        let archive = folder.join(format!("lib{name}.a"));
        assert!(
            archive.exists(),
            "{} is missing: run {script} first",
            archive.display()
        );
        println!("cargo:rerun-if-changed={}", archive.display());
        println!("cargo:rustc-link-lib=static={name}");
    }
}

fn main() {
    let target = Path::new(env!("CARGO_MANIFEST_DIR")).join("../target");
    if std::env::var_os("CARGO_FEATURE_TWO_COMMITS").is_some() {
        link(
            &target.join("two_commits"),
            &SIDES,
            "benches/two_commits.sh",
        );
    } else {
        link(&target.join("staticlib"), &CRATES, "benches/run.sh");
    }
    place();
}
