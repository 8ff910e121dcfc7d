#!/bin/sh
# Makes the records again, and holds them against check.py:
#   ./build.sh [FOLDER [ORDERS [EDITS [SEED [MAX_NODES [MAX_EDITS]]]]]]
# Needs cargo, and Debian's librust-indexmap-dev and librust-hashbrown-dev.
# Nothing is fetched; all building is done in a temporary folder.
set -eu

here=$(cd "$(dirname "$0")" && pwd)
out=${1:-$here}
orders=${2:-600}
edits=${3:-400}
seed=${4:-1}
max_nodes=${5:-40}
max_edits=${6:-120}

# The folder of crates: the parent of the one that holds indexmap's Cargo.toml.
manifest=$(dpkg -L librust-indexmap-dev | grep '/indexmap-[^/]*/Cargo.toml$')
crates=$(dirname "$(dirname "$manifest")")

work=$(mktemp -d)
trap 'rm -rf "$work"' EXIT
cp -R "$here/Cargo.toml" "$here/src" "$work/"
mkdir "$work/.cargo"
cat > "$work/.cargo/config.toml" <<CONFIG
[source.crates-io]
replace-with = "debian"
[source.debian]
directory = "$crates"
CONFIG

(cd "$work" && cargo build --offline --quiet --target-dir "$work/target")
oracle=$work/target/debug/oracle

mkdir -p "$out"
"$oracle" orders-three > "$out/orders_three.txt"
"$oracle" orders-random "$orders" "$seed" "$max_nodes" > "$out/orders_random.txt"
"$oracle" edits "$edits" "$seed" "$max_edits" > "$out/edits.txt"
"$oracle" orders-edits "$edits" "$seed" "$max_edits" > "$out/orders_edits.txt"

rustc --version
dpkg-query -W -f '${Package} ${Version}\n' librust-indexmap-dev librust-hashbrown-dev

python3 "$here/check.py" "$out"
