# For tools/library, tools/page and tools/built.sh, which source this at the top of the repository: the version of all parts, which
# the library's code has as three numbers.
# shellcheck shell=bash
version=$(<VERSION)
numbers=$(sed -n 's/^const [A-Z]*: u32 = \([0-9]*\);$/\1/p' crates/mvtgate_c/src/version.rt | paste -sd .)
if [ "$numbers" != "$version" ]; then
    echo "${0##*/}: VERSION is $version, and crates/mvtgate_c/src/version.rt has $numbers: run packaging/write_version" >&2
    exit 1
fi
