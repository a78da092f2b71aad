# For tests/package: the packages and the tar file in a fresh system.
# (the names that aren't set here are those of tests/package)
# shellcheck shell=bash disable=SC2154

root=$room/root
bootstrap_log=$room/debootstrap.log

# Sets `mirror` to where this machine's apt has Debian from, and has debootstrap's wget go there in the same way.
set_mirror() {
    local proxy='' certificates=''
    # shellcheck disable=SC2016
    mirror=$(apt-get indextargets --format '$(ORIGIN) $(LABEL) $(COMPONENT) $(REPO_URI)' 'Created-By: Packages' 2>/dev/null |
        awk '$1 == "Debian" && $2 == "Debian" && $3 == "main" && !found { print $4; found = 1 }')
    mirror=${mirror:-http://deb.debian.org/debian}
    eval "$(apt-config shell proxy Acquire::http::Proxy certificates Acquire::https::CAInfo)"
    [ -z "$proxy" ] || export http_proxy=$proxy https_proxy=$proxy
    [ -z "$certificates" ] || echo "ca_certificate = $certificates" >"$room/wgetrc"
    [ -z "$certificates" ] || export WGETRC=$room/wgetrc
}

# Debian's minimal system with Python, made while the other tests run.
begin_fresh_root() {
    local mirror
    [ -z "$is_clean_folder" ] && [ "$(id -u)" = 0 ] && [ -e /usr/sbin/debootstrap ] || return 0
    set_mirror
    # (a group of its own, so that all of it can be ended)
    setsid debootstrap --variant=minbase --include=python3 bookworm "$root" "$mirror" >"$bootstrap_log" 2>&1 &
    bootstrap=$!
}

# Whether there is a fresh Debian.
has_debian() {
    [ -n "$bootstrap" ] || return 1
    local status=0
    wait "$bootstrap" || status=$?
    bootstrap=
    [ $status != 0 ] || return 0
    echo "debootstrap didn't end well: $(tail -n 2 "$bootstrap_log" | tr '\n' ' ')"
    return 1
}

# A folder with nothing but the C library's files, by which a program runs.
make_clean_folder() {
    local files
    rm -rf --one-file-system "$root"
    mkdir -p "$root"/{tmp,etc,opt,var/lib/dpkg/{info,updates}}
    touch "$root"/var/lib/dpkg/{status,available}
    mapfile -t files < <(ldd "$room/unpacked/usr/bin/mvtgate" "$room/unpacked"/usr/lib/*/libmvtgate.so.*.*.* |
        sed -n 's/.*=> \(\/[^ ]*\) .*/\1/p; s/^\t\(\/[^ ]*\) .*/\1/p' | sort -u)
    cp --parents --dereference "${files[@]}" "$root"
}

# inside WORD..: runs the words in the fresh root, with nothing of this environment.
inside() { env -i PATH=/usr/local/bin:/usr/sbin:/usr/bin:/sbin:/bin HOME=/root LC_ALL=C.UTF-8 DEBIAN_FRONTEND=noninteractive chroot "$root" "$@"; }

# All files but what dpkg, apt and the loader write down for themselves.
listed() {
    (cd "$root" && find . -xdev \( -path ./var/lib/dpkg -o -path ./var/log -o -path ./var/cache -o -path ./tmp \) -prune -o -print | LC_ALL=C sort)
}

has_no_toolchain() {
    local tool
    for tool in rt gcc cc g++ clang ld as ar make cargo rustc pkg-config; do
        if [ -n "$(find "$root/bin/" "$root/usr/bin" "$root/usr/local/bin" -name "$tool" 2>/dev/null)" ]; then
            echo "there is $tool"
            return 1
        fi
    done
}

# dpkg_inside WORD..: by the system's own dpkg, or from outside where it has none. Then its library is no package.
dpkg_inside() {
    if [ -n "$is_debian" ]; then inside dpkg "$@"; else dpkg --root="$root" --force-depends "$@"; fi
}

install_debs() {
    local debs=("mvtgate_${version}_amd64.deb" "libmvtgate-dev_${version}_amd64.deb")
    [ -z "$is_debian" ] || debs+=("python3-mvtgate_${version}_amd64.deb")
    (cd "$made" && cp "${debs[@]}" "$root/tmp/")
    if [ -n "$is_debian" ]; then inside dpkg -i "${debs[@]/#//tmp/}"; else dpkg_inside -i "${debs[@]/#/"$root/tmp/"}"; fi
}

# The pages can be unpacked, and both are those of the repository.
has_documents() {
    local section
    for section in 1 3; do
        gunzip -c "$root/usr/share/man/man$section/mvtgate.$section.gz" | cmp - "packaging/mvtgate.$section"
    done
    cmp "$root/usr/share/bash-completion/completions/mvtgate" packaging/mvtgate.bash-completion
    cmp "$root/usr/include/mvtgate.h" bindings/c/mvtgate.h
}

# what are_samples_right calls
by_package() { inside mvtgate check "/srv/tiles/$1.mvt"; }
by_tar() { inside "/opt/a folder/$tar_name/bin/mvtgate" check "/srv/tiles/$1.mvt"; }
by_program() { by_example "$1" inside /opt/judge; }
by_module() {
    local line
    line=$(awk -v name="$1.mvt" '$1 == name { print $2 }' "$room/by_module")
    echo "$line"
    [ "$line" = '{"ok":true}' ]
}

# build_for PREFIX LIBDIR: builds a program outside that runs inside, where the loader finds the library without being told
# where.
build_for() {
    "$python" packaging/tests/manual.py example >"$room/judge.c"
    gcc -o "$root/opt/judge" "$room/judge.c" -I"$root$1/include" -L"$root$2" -lmvtgate
    [ -z "$is_debian" ] || inside ldconfig -p | grep -F "libmvtgate.so.${version%%.*} (libc6,x86-64) => $(inside realpath -s "$2" | sed 's,^/usr/lib/,/lib/,')"
}

# The module answers for each tile, and its command counts them right, by both of its names.
run_module() {
    local valid faulty all it
    # shellcheck disable=SC2016
    inside python3 -c 'import pathlib, mvtgate
for it in pathlib.Path("/srv/tiles").iterdir():
    fault = mvtgate.check(it.read_bytes())
    print(it.name, fault.text if fault else "{\"ok\":true}")' >"$room/by_module"
    valid=$(cat tiles/expected/*.check | grep -cxF '{"ok":true}')
    faulty=$(($(find tiles/expected -name '*.check' | wc -l) - valid))
    all="$((valid + faulty)) tiles: $valid valid, $faulty with a fault"
    ends_with 1 inside mvtgate-check --confirm --allow-empty --jobs 2 /srv/tiles >"$room/command" 2>"$room/summary"
    [ "$(tail -n 1 "$room/summary")" = "$all" ]
    [ "$(grep -c '(confirmed)$' "$room/command")" = "$faulty" ]
    ends_with 1 inside python3 -m mvtgate check --confirm --allow-empty /srv/tiles 2>"$room/summary" | cmp - "$room/command"
    [ "$(tail -n 1 "$room/summary")" = "$all" ]
    [ "$(inside mvtgate-check --version)" = "mvtgate-check $version" ]
    for it in mvtgate-check mvtgate-planet; do
        gunzip -c "$root/usr/share/man/man1/$it.1.gz" | cmp - "packaging/$it.1"
    done
    cmp "$root/usr/share/bash-completion/completions/mvtgate-check" packaging/mvtgate-check.bash-completion
    [ "$(inside python3 -c 'import importlib.metadata; print(importlib.metadata.version("mvtgate"))')" = "$version" ]
    [ "$(inside python3 -c 'import mvtgate; print(type(mvtgate._library.calls).__module__)')" = mvtgate._native ]
}

# As packaging/README.md says, with the packages in any order.
by_apt() {
    # (without the packages that the module's programs recommend, of which mvtgate-planet says that they are missing)
    inside sh -ec 'cd /tmp && apt-get install -y --no-install-recommends ./python3-mvtgate_*.deb ./libmvtgate-dev_*.deb ./mvtgate_*.deb'
    [ "$(inside mvtgate --version)" = "mvtgate $version" ]
    ends_with 3 inside mvtgate-planet /srv/tiles 2>"$room/planet"
    [[ $(cat "$room/planet") == *"not installed: distributed, jinja2, tqdm "* ]]
}

# mvtgate-planet judges the sample tiles, as a folder z/x/y.mvt, with what Debian has for it. (Dask looks at /proc.)
run_planet() {
    local at=0 tile
    inside apt-get install -y --no-install-recommends python3-distributed python3-jinja2 python3-tqdm
    mkdir -p "$root/tmp/planet/8/0"
    for tile in "$root"/srv/tiles/*.mvt; do
        cp "$tile" "$root/tmp/planet/8/0/$at.mvt"
        at=$((at + 1))
    done
    mount -t proc proc "$root/proc"
    ends_with 1 inside timeout 600 mvtgate-planet --output /tmp/judged /tmp/planet
    umount "$root/proc"
    [ "$(grep -c '"confirmed": true}$' "$root/tmp/judged/faults.jsonl")" = "$(grep -LxF '{"ok":true}' tiles/expected/*.check | wc -l)" ]
    [ -s "$root/tmp/judged/report.html" ] && cmp "$root/tmp/judged/page.html" web/out/index.html
}

# statements: makes a table of the sample tiles, a row for each line that is expected of one, and counts the tiles whose verdict is a
# line of theirs.
statements() {
    local expected name tile line lines
    echo 'CREATE EXTENSION mvtgate;'
    echo 'CREATE TABLE samples (name text, tile bytea, line jsonb);'
    for expected in tiles/expected/*.check; do
        name=$(basename "$expected" .check)
        tile=$(od -An -v -tx1 "tiles/$name.mvt" | tr -d ' \n')
        mapfile -t lines <"$expected"
        for line in "${lines[@]}"; do
            printf "INSERT INTO samples VALUES ('%s', '\\\\x%s', '%s');\n" "$name" "$tile" "$line"
        done
    done
    echo "COPY (SELECT count(DISTINCT name) FROM samples WHERE coalesce(mvt_fault(tile), '{\"ok\": true}') = line) TO '/tmp/right';"
}

# The extension for PostgreSQL, by apt with the server that it needs, in a server of one user, which ends with its input.
run_extension() {
    local server=/usr/lib/postgresql/15/bin as_owner=(setpriv --reuid postgres --regid postgres --init-groups)
    mkdir -p "$root/etc/postgresql-common"
    echo 'create_main_cluster = false' >"$root/etc/postgresql-common/createcluster.conf"
    cp "$made/postgresql-15-mvtgate_${version}_amd64.deb" "$root/tmp/"
    inside apt-get install -y --no-install-recommends "/tmp/postgresql-15-mvtgate_${version}_amd64.deb"
    inside "${as_owner[@]}" $server/initdb -D /tmp/cluster -N
    statements | inside "${as_owner[@]}" $server/postgres --single -D /tmp/cluster postgres
    are_lines "$(find tiles/expected -name '*.check' | wc -l)" cat "$root/tmp/right"
    inside apt-get purge -y postgresql-15-mvtgate
    [ ! -e "$root$server/../lib/mvtgate.so" ]
}

purge() { inside apt-get purge -y mvtgate libmvtgate-dev python3-mvtgate; }

test_packages() {
    local before
    before=$(listed)
    expect "no toolchain in the fresh root" has_no_toolchain
    expect "dpkg -i" install_debs
    expect "the samples by the package" are_samples_right by_package
    expect "the pages, the completion and the header" has_documents
    expect "building for the package's library" build_for /usr /usr/lib/x86_64-linux-gnu
    expect "the samples by the package's library" are_samples_right by_program
    rm -f "$root/opt/judge"
    if [ -n "$is_debian" ]; then
        expect "Python's module and its command" run_module
        expect "the samples by Python's module" are_samples_right by_module
        expect "dpkg --verify" are_lines "" inside dpkg --verify
        expect "dpkg -P of Python's package" dpkg_inside -P python3-mvtgate
    fi
    expect "dpkg -P" dpkg_inside -P libmvtgate-dev mvtgate
    expect "nothing is left" are_lines "$before" listed
    if [ -n "$is_debian" ]; then
        expect "apt-get install" by_apt
        expect "mvtgate-planet" run_planet
        ! has /usr/include/postgresql/15/server/postgres.h "the extension in a fresh Debian" ||
            expect "the extension for PostgreSQL" run_extension
        test_service
        expect "apt-get purge" purge
    fi
    expect "no package is left" are_lines "" dpkg-query --admindir="$root/var/lib/dpkg" -W '*mvtgate*'
}

test_tar() {
    tar_name=mvtgate-$version-linux-x86_64
    mkdir "$root/opt/a folder"
    tar -xzf "$made/$tar_name.tar.gz" -C "$root/opt/a folder"
    expect "the tar file has one folder" are_lines "$tar_name" ls "$root/opt/a folder"
    expect "the samples by the tar file" are_samples_right by_tar
    expect "building with the tar file" build_consumer "$root/opt/a folder/$tar_name/lib/pkgconfig" "$root/opt/judge" shared \
        "-Wl,-rpath,'/opt/a folder/$tar_name/lib'"
    expect "the samples by the tar file's library" are_samples_right by_program
}

# An ldconfig before the system's, that names as many libraries as a large system has: /tmp/large/ldconfig.
put_large_ldconfig() {
    mkdir "$root/tmp/large"
    cat >"$root/tmp/large/ldconfig" <<'END'
#!/bin/sh -e
/sbin/ldconfig "$@"
[ "$1" != -vNX ] || seq -f '	lib%.0f.so.0 -> lib%.0f.so.0.0.0' 100000
END
    chmod 755 "$root/tmp/large/ldconfig"
}

# tools/install of a checkout in which all is built, where there is no toolchain.
test_checkout() {
    local before
    copy_checkout "$root/tmp/a checkout"
    put_large_ldconfig
    before=$(listed)
    expect "tools/install in the fresh root" inside env PATH=/tmp/large:/usr/sbin:/usr/bin:/sbin:/bin "/tmp/a checkout/tools/install" /usr/local
    expect "the samples by the installed program there" are_samples_right by_package
    expect "building for the installed library" build_for /usr/local /usr/local/lib
    expect "the samples by the installed library" are_samples_right by_program
    rm -f "$root/opt/judge"
    expect "tools/install --uninstall in the fresh root" inside "/tmp/a checkout/tools/install" --uninstall /usr/local
    expect "nothing is left of the installation" are_lines "$before" listed
}

test_fresh_root() {
    local is_debian='' tar_name expected
    if [ "$(id -u)" != 0 ]; then
        tests/left_out package:fresh_root "the fresh root (this isn't root)" || failed=$((failed + 1))
        return
    fi
    if has_debian; then
        is_debian=yes
    else
        [ -n "$is_clean_folder" ] || tests/left_out package:debian "Debian's minimal system, and Python in it" || failed=$((failed + 1))
        echo "the packages are tried in a folder with the C library alone"
        make_clean_folder
    fi
    # (not in /tmp, which systemd empties)
    mkdir -p "$root/srv/tiles"
    for expected in tiles/expected/*.check; do
        cp "tiles/$(basename "$expected" .check).mvt" "$root/srv/tiles/"
    done
    test_packages
    [ -z "$is_debian" ] || test_checkout
    test_tar
}
