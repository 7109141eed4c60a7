#!/bin/sh
# oracle/guard.sh [ARCHIVES [CALLS [SEED]]]: builds oracle/guard/main.rs against libcapi.a of ARCHIVES (target/staticlib if not given:
# `tools/archive capi`), and runs it. Its last line is 'N passed, M failed'. The groups of functions that the archive has are found in it.
set -eu
here=$(cd "$(dirname "$0")" && pwd)
archives=${1:-$here/../target/staticlib}
[ $# -eq 0 ] || shift
out=$here/../target/oracle
mkdir -p "$out"
groups=
for group in fitting:tq_fitting convert:tq_convert_signed_to_signed float:tq_from_f32_signed further:tq_abs_signed; do
    if grep -qa "${group#*:}" "$archives/libcapi.a"; then
        groups="$groups --cfg ${group%%:*}"
    else
        echo "not in this archive: ${group%%:*}"
    fi
done
# shellcheck disable=SC2086 # one word for each option
rustc -O --edition 2024 $groups --check-cfg 'cfg(fitting, convert, float, further)' -o "$out/guard" "$here/guard/main.rs" \
    -L "native=$archives" -l static=capi
exec "$out/guard" "$@"
