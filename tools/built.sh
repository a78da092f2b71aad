# For tools/install and tools/package, which source this at the top of the repository: the program and the library that they take,
# built where they are missing or older than a source. Where both are current neither the toolchain nor Python is needed.
# shellcheck shell=bash disable=SC2034

program=crates/mvtgate/out/mvtgate
library=bindings/c/out

# shellcheck source=tools/version.sh
. tools/version.sh

library_is_current() (
    top=.
    # shellcheck source=tools/current.sh
    . tools/current.sh
    [ -f $library/libmvtgate.a ] && is_current $library/libmvtgate.so $library/sources
)

# Builds what has to be built, and stops where the program has another version.
build() {
    local told
    told=$(./mvtgate --version)
    if [ "$told" != "mvtgate $version" ]; then
        echo "${0##*/}: VERSION is $version, and the program says '$told': run packaging/write_version" >&2
        return 1
    fi
    library_is_current || tools/library
}
