# What the scripts of packaging/ have in common; they read it, and set here, root and room.
# shellcheck shell=sh disable=SC2034,SC2154

say() {
    printf '%s: %s\n' "${0##*/}" "$*" >&2
}

fail() {
    say "$*"
    exit 1
}

wrong_words() {
    say "$*; see packaging/${0##*/} --help"
    exit 2
}

# need PACKAGE TOOL..: ends where a tool is missing, and names Debian's package that has it.
need() {
    package=$1
    shift
    for tool; do
        command -v "$tool" >/dev/null || fail "$tool is not installed (Debian's package $package has it)"
    done
}

# The text at the top of the script is its help.
print_help() {
    awk 'NR > 1 { if (!/^#/) exit; sub(/^# ?/, ""); print }' "$0"
}

# read_words FOLDER OPTIONS WORDS..: reads the words of the command line into folder, which is FOLDER if none is named, and, by
# those options that the script takes, into given_program, given_library, only_program and gate (each a word, or nothing).
read_words() {
    folder=$1 options=" $2 "
    shift 2
    given_program='' given_library='' only_program='' gate='' named=''
    while [ $# -gt 0 ]; do
        case $1 in
            -h | --help)
                print_help
                exit 0
                ;;
            -*)
                case $options in
                    *" $1 "*) ;;
                    *) wrong_words "there is no option $1" ;;
                esac
                if [ "$1" = --only-program ]; then
                    only_program=yes
                else
                    [ -n "${2-}" ] || wrong_words "$1 wants a file or a folder"
                    case $1 in
                        --program) given_program=$2 ;;
                        --library) given_library=$2 ;;
                        --gate) gate=$2 ;;
                    esac
                    shift
                fi
                ;;
            '') wrong_words 'a folder has a name' ;;
            *)
                [ -z "$named" ] || wrong_words "one folder is enough, and $1 is a second"
                named=$1
                ;;
        esac
        shift
    done
    folder=${named:-$folder}
}

# strip_of KIND FILE: takes away what nobody needs who runs the file or links with it (KIND: --strip-unneeded, --strip-debug).
strip_of() {
    strip "$1" --enable-deterministic-archives --remove-section=.comment --remove-section=.note "$2"
}

# Puts the program into the room, without the names of its functions, as topichub.
take_program() {
    if [ -n "$given_program" ]; then
        if [ ! -f "$given_program" ] || [ ! -x "$given_program" ]; then fail "$given_program is no program"; fi
        cp -- "$given_program" "$room/topichub"
        say "$given_program is packaged as it was given: nothing is said of its proof"
    else
        "$root/run" --install "$room"
    fi
    chmod 755 "$room/topichub"
    strip_of --strip-unneeded "$room/topichub"
}

# Puts libtopichub.a and the shared library into the room. Sets soname, libtopichub.so.0.
take_library() {
    from=$given_library
    if [ -n "$from" ]; then
        [ -d "$from" ] || fail "$from is no folder"
        say "the library in $from is packaged as it was given: nothing is said of its proof"
    else
        need make make
        make --no-print-directory -C "$root/lib/c" KIND=proved >&2
        from=$root/lib/c/build
    fi
    soname=$(cd -- "$from" && find . -maxdepth 1 -name 'libtopichub.so.[0-9]*' -printf '%f\n')
    for file in libtopichub.a "${soname:-libtopichub.so.0}"; do
        [ -f "$from/$file" ] || fail "$from has no file $file"
        cp -- "$from/$file" "$room/$file"
        chmod 644 "$room/$file"
    done
    strip_of --strip-debug "$room/libtopichub.a"
    strip_of --strip-unneeded "$room/$soname"
    readelf -dW "$room/$soname" | grep -qF "soname: [$soname]" || fail "$soname has another soname"
}

# Puts libtopichub_threads.a and its shared library into the room, from where take_library found the other. Sets soname_threads,
# libtopichub_threads.so.0.
take_threads() {
    soname_threads=libtopichub_threads.so.${soname##*.so.}
    for file in libtopichub_threads.a "$soname_threads"; do
        [ -f "$from/$file" ] || fail "$from has no file $file"
        cp -- "$from/$file" "$room/$file"
        chmod 644 "$room/$file"
    done
    strip_of --strip-debug "$room/libtopichub_threads.a"
    strip_of --strip-unneeded "$room/$soname_threads"
}

# The libraries that a program or a library needs, by their sonames.
needed_by() {
    readelf -dW "$1" | sed -n 's/.*(NEEDED).*\[\(.*\)\]/\1/p'
}

# The oldest C library that has all that a program or a library takes of it: 2.34.
oldest_glibc() {
    readelf -VW "$1" | grep -o 'GLIBC_[0-9][0-9.]*' | sort -uV | tail -n 1 | sed 's/GLIBC_//'
}

# Debian's name of the processor that a file is for.
processor_of() {
    case $(od -An -j18 -N2 -tx1 "$1" | tr -d ' ') in
        3e00) echo amd64 ;;
        b700) echo arm64 ;;
        *) fail "${1##*/} is for a processor that is not known here" ;;
    esac
}

# Sets plain, the version that the header has, and the program that is in the room as well; epoch, the second of the last commit;
# architecture, Debian's name of the processor, with machine, the one that others give it.
take_facts() {
    plain=$(sed -n 's/^#define TOPICHUB_VERSION "\(.*\)"$/\1/p' "$root/lib/c/topichub.h")
    case $plain in
        '' | *[!0-9.]*) fail "lib/c/topichub.h tells its version as $plain" ;;
    esac
    if [ -f "$room/topichub" ]; then
        told=$("$room/topichub" --version) || fail 'the program does not tell its version'
        [ "$told" = "topichub $plain" ] || fail "the program tells its version as $told, and lib/c/topichub.h as $plain"
    fi
    epoch=${SOURCE_DATE_EPOCH:-$(git -C "$root" log -1 --format=%ct)} ||
        fail 'there is no commit to take the date from: set SOURCE_DATE_EPOCH'
    architecture=''
    for file in "$room"/topichub "$room"/libtopichub.so.*; do
        [ -f "$file" ] || continue
        found=$(processor_of "$file") || exit 1
        [ "${architecture:-$found}" = "$found" ] || fail 'the program and the library are for different processors'
        architecture=$found
    done
    case $architecture in
        amd64) machine=x86_64 ;;
        arm64) machine=aarch64 ;;
    esac
}

# name_versions GIVEN: sets version, wheel_version and crate_version, what the version is of a package of Debian or a tarball, of
# one for Python, and of one for Cargo. As long as CHANGELOG.md has no date of it, what is made comes before it. What was given by
# hand, where GIVEN is a word, is told by the version.
#
#     CHANGELOG.md   given   version                     wheel_version                crate_version
#     dates it               0.1.0                       0.1.0                        0.1.0
#     dates it       yes     0.1.0~given                 0.1.0.dev0+given             0.1.0-given
#     does not               0.1.0~20260131.1200         0.1.0.dev202601311200        0.1.0-dev.202601311200
#     does not       yes     0.1.0~20260131.1200~given   0.1.0.dev202601311200+given  0.1.0-dev.202601311200.given
name_versions() {
    version=$plain wheel_version=$plain crate_version=$plain
    if ! grep -q "^## \[$plain\] - [0-9]" "$root/CHANGELOG.md"; then
        minute=$(date -u -d "@$epoch" +%Y%m%d%H%M)
        version=$plain~$(date -u -d "@$epoch" +%Y%m%d.%H%M) wheel_version=$plain.dev$minute crate_version=$plain-dev.$minute
    fi
    if [ -n "$1" ]; then
        version=$version~given
        case $wheel_version in *.dev*) ;; *) wheel_version=$wheel_version.dev0 ;; esac
        wheel_version=$wheel_version+given
        case $crate_version in *-*) crate_version=$crate_version.given ;; *) crate_version=$crate_version-given ;; esac
    fi
}

# put MODE FILE.. FOLDER: copies the files into the folder.
put() {
    mode=$1
    shift
    for target; do :; done
    mkdir -p -- "$target"
    while [ $# -gt 1 ]; do
        install -m "$mode" -- "$1" "$target/"
        shift
    done
}

# stage FOLDER ZSH: bin and share in the folder, zsh's completion in the folder ZSH of zsh's own.
stage() {
    share=$1/share
    put 755 "$room/topichub" "$root/lib/python/topichub/bridge.py" "$1/bin"
    mv "$1/bin/bridge.py" "$1/bin/topichub-bridge"
    put 644 "$here"/man/*.1 "$share/man/man1"
    put 644 "$here/completions/topichub.bash" "$share/bash-completion/completions"
    mv "$share/bash-completion/completions/topichub.bash" "$share/bash-completion/completions/topichub"
    put 644 "$here/completions/topichub.zsh" "$share/zsh/$2"
    mv "$share/zsh/$2/topichub.zsh" "$share/zsh/$2/_topichub"
    put 644 "$here/completions/topichub.fish" "$share/fish/vendor_completions.d"
    put 644 "$here"/debian/topichub*@.* "$1/lib/systemd/system"
    stage_documents "$share/doc/topichub"
}

# stage_for_compilers FOLDER LIB PREFIX: what a compiler takes besides the shared libraries: the headers in the folder; the archives,
# the links to the shared libraries and what pkg-config takes in its folder LIB. PREFIX is where the folder will stand, as pkg-config is
# told it.
stage_for_compilers() {
    put 644 "$root/lib/c/topichub.h" "$root/lib/c/topichub_threads.h" "$1/include"
    put 644 "$room/libtopichub.a" "$room/libtopichub_threads.a" "$1/$2"
    ln -s "$soname" "$1/$2/libtopichub.so"
    ln -s "$soname_threads" "$1/$2/libtopichub_threads.so"
    for name in topichub topichub-threads; do
        make --silent -C "$root/lib/c" KIND=proved BUILD="$room/made" PREFIX="$3" LIBDIR="$3/$2" "$room/made/$name.pc" >&2
        put 644 "$room/made/$name.pc" "$1/$2/pkgconfig"
    done
    rm -r "$room/made"
}

# stage_examples FOLDER: the examples in C.
stage_examples() {
    put 644 "$root"/lib/c/examples/*.c "$1"
}

# put_as_is FILE FOLDER: copies the file into the folder, to be run where it can be run here.
put_as_is() {
    if [ -x "$1" ]; then put 755 "$1" "$2"; else put 644 "$1" "$2"; fi
}

# stage_documents FOLDER: the documents, without the links to what is not installed, and the examples with the Python that they use.
# examples/check and examples/beside are left out, since they run the repository's program.
stage_documents() {
    put 644 "$root/README.md" "$1"
    put 644 "$root"/docs/*.* "$1/docs"
    for file in "$root"/examples/*.* "$root/examples/draw"; do
        put_as_is "$file" "$1/examples"
    done
    for kind in clients drawing; do
        for file in "$root/examples/$kind"/*; do
            [ ! -f "$file" ] || put_as_is "$file" "$1/examples/$kind"
        done
    done
    # The package that examples/clients use, without the bridge, which is a program of its own.
    put 644 "$root/lib/python/README.md" "$1/lib/python"
    for file in "$root"/lib/python/topichub/*.py "$root/lib/python/topichub/py.typed"; do
        [ "${file##*/}" = bridge.py ] || put 644 "$file" "$1/lib/python/topichub"
    done
    "$here/unlink.py" "$1"
}

# hand_over FILE..: puts what was made into the folder, and prints its names there.
hand_over() {
    mkdir -p -- "$folder"
    for file; do
        mv -f -- "$file" "$folder/"
        printf '%s\n' "$folder/${file##*/}"
    done
}

# pack TOP FILE: makes the gzipped tar FILE, with the folder TOP of the room in it, in the room.
pack() {
    tar -C "$room" --sort=name --mtime="@$epoch" --owner=root:0 --group=root:0 --format=gnu -cf "$room/packed.tar" -- "$1"
    gzip -9n <"$room/packed.tar" >"$room/$2"
    rm "$room/packed.tar"
}
