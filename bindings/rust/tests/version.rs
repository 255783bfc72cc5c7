//! Library and crate belong together: they have one version.

use vihrolom::calls::version;

#[test]
fn the_librarys_version_is_the_crates() {
    let number = version();
    let parts = [number / 1_000_000, number / 1_000 % 1_000, number % 1_000];
    let [major, minor, patch] = parts;
    assert_eq!(
        format!("{major}.{minor}.{patch}"),
        env!("CARGO_PKG_VERSION")
    );
}
