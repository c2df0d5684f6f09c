#!/usr/bin/env bash
# Builds the station's static library, crates/flnet_station/out/libflnet_station.a, over the libraries that `rt ci` has just proved and left in
# the crates' folders out/. `rt lib` in crates/flnet_station makes the same archive, but proves each library below it once more where no check
# on this machine has kept it. To be run only where all of out/ is that run's own, as in a clean clone: `.ci/run` sees to that.
set -euo pipefail
cd "$(dirname "$0")/../crates/flnet_station"
kit=$(dirname "$(rt doc)")
words=(--extern "std=$kit/rlibs/std.rlib" -L "dependency=$kit/rlibs")
for name in $(sed -n 's/^flnet_station staticlib: \([^#]*\).*/\1/p' ../../crates.txt); do
    words+=(--extern "$name=../$name/out/rlib/$name.rlib")
done
for folder in ../*/out/rlib; do
    words+=(-L "dependency=$folder")
done
exec "$kit/bin/rattle" build --crate-name flnet_station src/lib.rt --crate-type staticlib "${words[@]}" --jobs 2 --backend llvm \
    --antt-project "$kit/rattle/logic/antt-project.json" --logic-built "$kit/logic_built" --toolchain "$kit/toolchain" \
    -o out/libflnet_station.a
