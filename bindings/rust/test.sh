#!/bin/sh
# bindings/rust/test.sh [ARCHIVES]: builds the crate, its tests and its example with rustc alone against libcapi.a of ARCHIVES (target/staticlib
# of the repository if not given: `tools/archive capi`), and runs them. Its last line is 'N passed, M failed'.
set -eu
here=$(cd "$(dirname "$0")" && pwd)
archives=${1:-$here/../../target/staticlib}
out=$here/../../target/bindings
mkdir -p "$out"
log=$out/log
: >"$log"
rustc -O --edition 2024 --crate-type rlib --crate-name tamqoret --out-dir "$out" "$here/src/lib.rs" -L "native=$archives" -l static=capi
with="-L native=$archives --extern tamqoret=$out/libtamqoret.rlib"
status=0
for name in cases fitting further; do
    # shellcheck disable=SC2086 # one word for each option
    rustc -O --edition 2024 --test -o "$out/$name" "$here/tests/$name.rs" $with
    "$out/$name" >>"$log" 2>&1 || status=1
done
# shellcheck disable=SC2086
rustdoc --edition 2024 --test --crate-name tamqoret "$here/src/lib.rs" $with >>"$log" 2>&1 || status=1
# shellcheck disable=SC2086
rustc -O --edition 2024 -o "$out/bench" "$here/examples/bench.rs" $with
"$out/bench" >"$out/bench.out" || status=1
if cmp -s "$out/bench.out" "$here/examples/bench.out"; then
    echo "test examples/bench ... ok" >>"$log"
else
    echo "test examples/bench ... FAILED" >>"$log"
fi
cat "$log"
passed=$(grep -c '^test .*\.\.\. ok$' "$log") || true
failed=$(grep -c '^test .*\.\.\. FAILED$' "$log") || true
[ "$status" -eq 0 ] || [ "$failed" -ne 0 ] || failed=1
echo "$passed passed, $failed failed"
[ "$failed" -eq 0 ]
