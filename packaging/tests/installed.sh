# For tests/package: tools/install and --uninstall.
# (the names that aren't set here are those of tests/package)
# shellcheck shell=bash disable=SC2154

# listing FOLDER: all that is in it, with modes and what links say.
listing() { (cd "$1" && find . -printf '%P %y %m %l\n' | LC_ALL=C sort); }

# has_all PREFIX LIBDIR: whether the files that are to be there are, with these modes and links, and no others.
has_all() {
    local name=libmvtgate.so.$version
    diff <(find "$1" "$2" -type l -printf '%p -> %l\n' -o -type f -printf '%p %m\n' | LC_ALL=C sort -u) <(
        LC_ALL=C sort <<END
$1/bin/mvtgate 755
$2/libmvtgate.so -> ${name%.*.*}
$2/${name%.*.*} -> $name
$2/$name 644
$2/libmvtgate.a 644
$2/pkgconfig/mvtgate.pc 644
$1/include/mvtgate.h 644
$1/share/bash-completion/completions/mvtgate 644
$1/share/man/man1/mvtgate.1 644
$1/share/man/man3/mvtgate.3 644
$1/share/mvtgate/installed 644
END
    )
}

# build_consumer PKG_CONFIG_PATH PROGRAM static|shared [FLAG..]: builds the example of mvtgate.3, as that page says.
build_consumer() {
    local flags needed
    "$python" packaging/tests/manual.py example >"$room/judge.c"
    export PKG_CONFIG_PATH=$1
    [ "$(pkg-config --modversion mvtgate)" = "$version" ]
    case $3 in
    shared) flags=$(pkg-config --cflags --libs mvtgate) ;;
    static) flags="$(pkg-config --cflags mvtgate) $(pkg-config --variable=libdir mvtgate)/libmvtgate.a" ;;
    esac
    # (pkg-config writes a space within a path as a shell reads it)
    eval "gcc -std=c99 -Wall -Wextra -Werror -pedantic-errors -o '$2' '$room/judge.c' $flags ${*:4}"
    # the static one needs no file beside it, and the other does
    needed=$(readelf --dynamic "$2")
    [ "$3" = "$([[ $needed == *'[libmvtgate.so.'* ]] && echo shared || echo static)" ]
}

# what are_samples_right calls
by_installed() { "$prefix/bin/mvtgate" check "tiles/$1.mvt"; }
by_consumer() { by_example "$1" "$consumer"; }

test_consumers() {
    local consumer=$room/judge_static
    expect "building with the static library" build_consumer "$prefix/lib/pkgconfig" "$consumer" static
    expect "the samples by the static library" are_samples_right by_consumer
    consumer=$room/judge_shared
    expect "building with the shared library" build_consumer "$prefix/lib/pkgconfig" "$consumer" shared
    export LD_LIBRARY_PATH=$prefix/lib
    expect "the samples by the shared library" are_samples_right by_consumer
    unset LD_LIBRARY_PATH
}

# make_extension DATABASE: builds the extension over what was installed, by a link, since make reads no name with a space.
make_extension() {
    local words=("MVTGATE_LIB_DIR=$room/installed/lib" "MVTGATE_INCLUDE_DIR=$room/installed/include")
    ln -sfn "$prefix" "$room/installed"
    ln -sfn "$PWD" "$room/here"
    mkdir "$room/extension_$1"
    case $1 in
    sqlite) make -f "$room/here/bindings/sqlite/Makefile" OUT="$room/extension_sqlite" "${words[@]}" ;;
    postgresql) make -C "$room/extension_postgresql" -f "$room/here/bindings/postgresql/Makefile" \
        PG_CONFIG=/usr/lib/postgresql/15/bin/pg_config "${words[@]}" ;;
    esac
    [ -s "$room/extension_$1/mvtgate.so" ]
}

# Others' files and folders, empty ones too, that --uninstall leaves as they are.
put_others() {
    mkdir -p "$1/lib" "$1/share/man/man1" "$1/share/empty"
    echo other | tee "$1/lib/other" >"$1/share/man/man1/other.1"
}

test_place() {
    local prefix="$room/a prefix" before after
    put_others "$prefix"
    before=$(listing "$prefix")
    expect "tools/install" tools/install "$prefix"
    after=$(listing "$prefix")
    expect "the samples by the installed program" are_samples_right by_installed
    test_consumers
    ! has /usr/include/sqlite3ext.h "the extension for SQLite over what was installed" || ! has /usr/include/zlib.h "the same" ||
        expect "the extension for SQLite" make_extension sqlite
    ! has /usr/include/postgresql/15/server/postgres.h "the extension for PostgreSQL over what was installed" ||
        expect "the extension for PostgreSQL" make_extension postgresql
    if has /usr/share/bash-completion/bash_completion "the completion by bash-completion"; then
        export XDG_DATA_DIRS=$prefix/share
        expect "the completion where bash-completion looks for it" "$python" packaging/tests/typed.py /usr/share/bash-completion/bash_completion
        unset XDG_DATA_DIRS
    fi
    ! has /usr/bin/man "man's search" || expect "man 3 mvtgate" are_lines "$prefix/share/man/man3/mvtgate.3" man -M "$prefix/share/man" -w 3 mvtgate
    expect "tools/install again" tools/install "$prefix"
    expect "the same files after that" are_lines "$after" listing "$prefix"
    rm -r "$prefix/lib/other" "$prefix/share/man/man1/other.1"
    expect "the files and modes" has_all "$prefix" "$prefix/lib"
    put_others "$prefix"
    expect "tools/install --uninstall" tools/install --uninstall "$prefix"
    expect "the folder as it was" are_lines "$before" listing "$prefix"
    expect "tools/install --uninstall again" tools/install --uninstall "$prefix"
    expect "the folder still as it was" are_lines "$before" listing "$prefix"
    expect "make install" make install PREFIX="$prefix"
    expect "the same files by make" are_lines "$after" listing "$prefix"
    expect "make uninstall" make uninstall PREFIX="$prefix"
    expect "the folder as it was before make" are_lines "$before" listing "$prefix"
}

# An earlier version's files go when this one comes.
test_upgrade() {
    local prefix=$room/upgraded
    tools/install "$prefix" >/dev/null
    touch "$prefix/lib/libmvtgate.so.0.0.1"
    echo "$prefix/lib/libmvtgate.so.0.0.1" >>"$prefix/share/mvtgate/installed"
    expect "tools/install over an earlier version" tools/install "$prefix"
    expect "the files of this version alone" has_all "$prefix" "$prefix/lib"
    expect "--uninstall of both" tools/install --uninstall "$prefix"
    expect "no folder is left" [ ! -e "$prefix" ]
}

test_destdir() {
    local root=$room/staged usr=$room/staged/usr
    mkdir "$root"
    export DESTDIR=$root
    expect "tools/install with DESTDIR" tools/install --libdir /usr/lib/x86_64-linux-gnu /usr
    expect "the files and modes in DESTDIR" has_all "$usr" "$usr/lib/x86_64-linux-gnu"
    expect "the paths of the pkg-config file have no DESTDIR" are_lines /usr/lib/x86_64-linux-gnu \
        env PKG_CONFIG_PATH="$usr/lib/x86_64-linux-gnu/pkgconfig" pkg-config --variable=libdir mvtgate
    expect "--uninstall with DESTDIR" tools/install --uninstall /usr
    expect "DESTDIR is empty" are_lines "" ls -A "$root"
    unset DESTDIR
}

test_installed() {
    local words
    if ! has /usr/bin/gcc "programs that are built" || ! has /usr/bin/pkg-config "programs that are built"; then return; fi
    test_place
    test_upgrade
    test_destdir
    for words in "" relative "/a /b" "--libdir" "--libdir relative /a" "--nothing /a" "--uninstall --libdir /a /b" "--uninstall"; do
        # shellcheck disable=SC2086
        expect "the words '$words'" ends_with 2 tools/install $words
    done
    expect "nothing is made by wrong words" [ ! -e /a ]
}
