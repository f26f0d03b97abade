#!/bin/sh
# needs.sh: says what `make bench` needs and does not find. All of it but cargo is in packages of Debian 12.
missing=
need() { # WHAT PACKAGE COMMAND..: the command succeeds where it is there
    what=$1 package=$2
    shift 2
    "$@" >/dev/null 2>&1 || missing="$missing
  $what: $package"
}
need cargo "of Rust 1.78 or later, by rustup" cargo --version
need valgrind "apt-get install valgrind" valgrind --version
need callgrind_annotate "apt-get install valgrind" which callgrind_annotate
need /usr/bin/time "apt-get install time" test -x /usr/bin/time
need gnuplot "apt-get install gnuplot-nox" gnuplot --version
need "the crate toml 0.5" "apt-get install librust-toml-dev" test -d /usr/share/cargo/registry/toml-0.5.11
[ -z "$missing" ] || { echo "make bench needs:$missing"; exit 1; }
