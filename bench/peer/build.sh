#!/bin/sh
# Builds the peer: build.sh PROGRAM [OPTION..]. Further options go to rustc.
set -eu
program=$1
shift
case $(uname -m) in x86_64) set -- -C target-cpu=x86-64-v2 "$@" ;; esac
exec rustc --edition 2021 -C opt-level=3 -C codegen-units=1 -C panic=abort "$@" \
    -o "$program" "$(dirname "$0")/src/main.rs"
