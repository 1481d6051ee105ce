# For sourcing by bash in the repository's root: builds the independent program, and says where it is.
independent=tests/independent/target/release/independent
cargo build --quiet --release --offline --manifest-path tests/independent/Cargo.toml --target-dir tests/independent/target
