# For tests/package: what tools/package makes.
# (the names that aren't set here are those of tests/package)
# shellcheck shell=bash disable=SC2154

made=$room/made

made_names() { (cd "$1" && ls); }

are_same() {
    local it
    for it in "$1"/*; do
        cmp "$it" "$2/${it##*/}" || return 1
    done
}

# copy_checkout FOLDER: what tools/install and tools/package read, all of it built.
copy_checkout() {
    mkdir "$1"
    cp -a --parents VERSION tools packaging mvtgate crates.txt crates/*/src crates/*/specs bindings/c \
        bindings/faults.json bindings/python/pyproject.toml crates/mvtgate/out/mvtgate crates/mvtgate/out/sources "$1"
}

# A copy with another version than the library's code, and then than the program.
has_two_versions() {
    copy_checkout "$room/copy"
    echo 9.9.9 >"$room/copy/VERSION"
    ends_with 1 env SOURCE_DATE_EPOCH=1 "$room/copy/tools/package" "$room/none" 2>"$room/error"
    grep -F "version.rt has $version:" "$room/error"
    sed -i 's/^\(const [A-Z]*: u32 =\) [0-9]*;/\1 9;/' "$room/copy/crates/mvtgate_c/src/version.rt"
    ends_with 1 env SOURCE_DATE_EPOCH=1 "$room/copy/tools/package" "$room/none" 2>"$room/error"
    grep -F "the program says 'mvtgate $version':" "$room/error"
    [ ! -e "$room/none" ]
}

# A checkout with a space in its name, of someone who lets nobody else read his files, has the same packages.
are_same_from_elsewhere() {
    local copy="$room/a checkout"
    mkdir "$copy"
    # (with the times of the folders, by which what is built is current)
    tar --create --exclude=.git --exclude=out . | tar --extract --directory="$copy"
    cp -a --parents crates/mvtgate/out/{mvtgate,sources} bindings/c/out web/out web/module/out "$copy"
    chmod -R go= "$copy"
    (umask 077 && SOURCE_DATE_EPOCH=${SOURCE_DATE_EPOCH:-$(git log -1 --format=%ct)} "$copy/tools/package" "$room/elsewhere")
    are_same "$made" "$room/elsewhere"
}

# for_everybody PACKAGE: all in it can be read by everybody.
for_everybody() {
    local listed
    listed=$(tar --list --verbose --file <(dpkg-deb --fsys-tarfile "$(ls "$made/$1"_*.deb)") | grep -vE '^(l|[-d]r..r-.r-)' || true)
    [ -z "$listed" ] || { echo "$listed"; return 1; }
}

# The packages name what they need: the program and the library run by no newer C library than the one that is named.
needs_named_libc() {
    local named needed
    mkdir "$room/unpacked"
    dpkg-deb -x "$made/mvtgate_${version}_amd64.deb" "$room/unpacked"
    named=$(dpkg-deb -f "$made/mvtgate_${version}_amd64.deb" Depends)
    needed=$(objdump -T "$room/unpacked/usr/bin/mvtgate" "$room/unpacked"/usr/lib/*/libmvtgate.so.*.*.* |
        grep -o 'GLIBC_[0-9.]*' | sort -Vu | tail -1)
    echo "$named, and the newest symbol is of $needed"
    [ "$named" = "libc6 (>= ${needed#GLIBC_})" ]
}

# needs_libc_alone PACKAGE FILE [BEFORE]: the same of a package with the library in its one program, which needs no other library. In
# front of the C library it may name what else it needs.
needs_libc_alone() {
    local named needed file=$room/$1/$2
    mkdir "$room/$1"
    dpkg-deb -x "$made/$1_${version}_amd64.deb" "$room/$1"
    named=$(dpkg-deb -f "$made/$1_${version}_amd64.deb" Depends)
    needed=$(objdump -T "$file" | grep -o 'GLIBC_[0-9.]*' | sort -Vu | tail -1)
    echo "$named, and the newest symbol is of $needed"
    [ "$named" = "${3-}libc6 (>= ${needed#GLIBC_})" ]
    are_lines libc.so.6 sh -c "readelf --dynamic --wide '$file' | sed -n 's/.*(NEEDED).*\[\(.*\)\]/\1/p'"
}

# And of Python's extension, which loads the first package's library when it runs.
module_needs_named_libc() {
    local named needed python module=$room/module/usr/lib/python3/dist-packages/mvtgate/_native.abi3.so
    mkdir "$room/module"
    dpkg-deb -x "$made/python3-mvtgate_${version}_amd64.deb" "$room/module"
    named=$(dpkg-deb -f "$made/python3-mvtgate_${version}_amd64.deb" Depends)
    needed=$(objdump -T "$module" | grep -o 'GLIBC_[0-9.]*' | sort -Vu | tail -1)
    python=$(sed -n 's/^requires-python = ">=\(.*\)"$/\1/p' bindings/python/pyproject.toml)
    [ "$named" = "mvtgate (>= $version), python3 (>= $python), libc6 (>= ${needed#GLIBC_})" ]
    are_lines libc.so.6 sh -c "readelf --dynamic --wide '$module' | sed -n 's/.*(NEEDED).*\[\(.*\)\]/\1/p'"
}

# Each file of a package has its sum, and the names of no other file.
has_sums() {
    local unpacked=$room/sums_$1
    dpkg-deb -R "$(ls "$made/$1"_*.deb)" "$unpacked"
    (
        cd "$unpacked" || exit
        md5sum --check --quiet DEBIAN/md5sums
        diff <(find . \( -path ./DEBIAN -o -path ./etc \) -prune -o -type f -printf '%P\n' | LC_ALL=C sort) \
            <(sed 's/^[0-9a-f]*  //' DEBIAN/md5sums)
        # (of settings dpkg keeps the sums itself)
        [ ! -e etc ] || diff <(find etc -type f -printf '/%p\n' | LC_ALL=C sort) DEBIAN/conffiles
    )
}

test_made() {
    local names package packages=(mvtgate libmvtgate-dev python3-mvtgate) bare=/usr/sbin:/usr/bin:/sbin:/bin
    version=$(<VERSION)
    expect "tools/package" tools/package "$made"
    # (no toolchain is needed where all is built)
    expect "tools/package again, with the system's programs alone" env PATH=$bare tools/package "$room/again"
    names=("libmvtgate-dev_${version}_amd64.deb" "mvtgate-$version-linux-x86_64.tar.gz" "mvtgate_${version}_amd64.deb"
        "python3-mvtgate_${version}_amd64.deb" "mvtgate-$version.tgz")
    ! has /usr/lib/python3/dist-packages/build "the wheel" || ! has /usr/lib/python3/dist-packages/wheel "the wheel" ||
        names+=("mvtgate-$version-cp310-abi3-manylinux_2_34_x86_64.whl")
    if has /usr/include/postgresql/15/server/postgres.h "the extension for PostgreSQL"; then
        names+=("postgresql-15-mvtgate_${version}_amd64.deb")
        packages+=(postgresql-15-mvtgate)
        expect "the C library that the extension names" needs_libc_alone postgresql-15-mvtgate \
            usr/lib/postgresql/15/lib/mvtgate.so "postgresql-15, "
    fi
    if [ -n "$(tools/proxy --packages)" ]; then
        tests/left_out package:proxy "mvtgate-proxy (not installed: $(tools/proxy --packages))" || failed=$((failed + 1))
    else
        names+=("mvtgate-proxy_${version}_amd64.deb")
        packages+=(mvtgate-proxy)
        expect "the C library that mvtgate-proxy names" needs_libc_alone mvtgate-proxy usr/bin/mvtgate-proxy
    fi
    expect "the files of tools/package" are_lines "$(printf '%s\n' "${names[@]}" | LC_ALL=C sort)" env LC_ALL=C ls "$made"
    expect "the same bytes twice" are_same "$made" "$room/again"
    expect "the same bytes from a checkout with a space in its name and other modes" are_same_from_elsewhere
    expect "wrong words of tools/package" ends_with 2 tools/package a b
    expect "two versions" has_two_versions
    expect "the C library that is named" needs_named_libc
    expect "the C library that Python's extension names" module_needs_named_libc
    for package in "${packages[@]}"; do
        expect "the sums of $package" has_sums "$package"
        expect "the modes of $package" for_everybody "$package"
    done
    if has /usr/bin/lintian "the errors of the packages"; then
        expect "lintian" lintian --allow-root --fail-on error "$made"/*.deb
    fi
}
