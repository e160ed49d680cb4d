# keeping_kit.sh: sourced by rust/native and bench/stack (POSIX sh). A kit of links, whose clang keeps the code that it is given.

kit=$(dirname "$(rt doc)")

# FOLDER/kit/bin/rt is that kit's rt. The code that its clang was last given at -O3 stands in FOLDER/module.bc.
keeping_kit() { # FOLDER
    mkdir -p "$1/kit/bin" "$1/kit/toolchain/bin"
    for f in "$kit"/*; do case ${f##*/} in bin | toolchain) ;; *) ln -s "$f" "$1/kit/" ;; esac; done
    # rt takes the kit that its own files stand in.
    for f in "$kit/bin"/*; do case ${f##*/} in rt | *.py) cp "$f" "$1/kit/bin/" ;; *) ln -s "$f" "$1/kit/bin/" ;; esac; done
    for f in "$kit/toolchain"/*; do [ "${f##*/}" = bin ] || ln -s "$f" "$1/kit/toolchain/"; done
    for f in "$kit/toolchain/bin"/*; do [ "${f##*/}" = clang ] || ln -s "$f" "$1/kit/toolchain/bin/"; done
    cat >"$1/kit/toolchain/bin/clang" <<END
#!/bin/sh
case " \$* " in *" -O3 "*) for a in "\$@"; do case \$a in *.bc) cp "\$a" "$1/module.bc" ;; esac; done ;; esac
exec "$kit/toolchain/bin/clang" "\$@"
END
    chmod +x "$1/kit/toolchain/bin/clang"
}
