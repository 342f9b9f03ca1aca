#!/usr/bin/env bash
# Proves and builds the library for C hosts, and leaves it in out/libheadend.a. Crate headend_c has its exports; rt names an archive by its
# crate, and a host has always linked libheadend.a.
set -eu
cd "$(dirname "$0")/.."
(cd crates/headend_c && rt lib)
mkdir -p out
cp crates/headend_c/out/libheadend_c.a out/libheadend.a
