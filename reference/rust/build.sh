#!/bin/sh
# Builds frames_rust and groups_rust with rustc alone. The copies under src stay as published: build/src gets them with one line
# more in server.rs and db.rs, which names the driver as a child module.
set -eu
cd "$(dirname "$0")"
rm -rf build
mkdir -p build/src
cp -r src/. build/src/
cp stand_in/lib.rs build/src/lib.rs
cp stand_in/background.rs stand_in/compaction.rs build/src/db/
cp -r stand_in drivers build/
echo '#[path = "../drivers/connection.rs"] pub mod connection;' >> build/src/server.rs
echo '#[path = "../drivers/group.rs"] pub mod group;' >> build/src/db.rs
cd build
R="rustc -O --edition 2021 --cap-lints allow -C codegen-units=1"
rustc --edition 2021 --crate-type proc-macro --crate-name thiserror stand_in/thiserror.rs
$R --crate-type rlib --crate-name crossbeam_skiplist stand_in/crossbeam_skiplist.rs
$R --crate-type rlib --crate-name lsmkv -L . --extern thiserror --extern crossbeam_skiplist src/lib.rs
$R -L . --extern lsmkv drivers/frames_rust.rs -o ../frames_rust
$R -L . --extern lsmkv drivers/groups_rust.rs -o ../groups_rust
