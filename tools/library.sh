#!/bin/sh
# Proves the C library and builds target/staticlib/libcapi.a, the archive that C, C++ and Rust programs link.
cd "$(dirname "$0")/.." || exit 1
(cd crates/capi_c && rt lib) || exit 1
mkdir -p target/staticlib && cp crates/capi_c/out/libcapi_c.a target/staticlib/libcapi.a
