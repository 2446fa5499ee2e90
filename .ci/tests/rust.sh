# The wrappers against plain Rust. The archive is the proved one.
set -e
unset VAKHUDLE_ARCHIVE
mkdir -p target
(cd crates/abi && rt lib) >target/archive.log 2>&1 || { tail -n 40 target/archive.log; exit 1; }
cd rust
cargo test --release --offline --quiet
