#!/bin/sh
# Times of every call as ratios: bench/run.sh. Needs the static library, gcc, cargo, rpcgen and
# libtirpc (apt-get install rpcsvc-proto libtirpc-dev).
set -eu
root=$(cd "$(dirname "$0")/.." && pwd)
: "${YELANSUB_ARCHIVE_DIR:=$root/target/staticlib}"
export YELANSUB_ARCHIVE_DIR
cd "$root/bench"
exec cargo run --quiet --release --offline
