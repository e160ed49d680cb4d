# tools.sh: sourced by run (POSIX sh). What compiles Rust for x86-64 and counts instructions, by what the machine has, or out of
# packages that are fetched and unpacked to one folder, with no change to the system.
#
#   COUNTER=here      the machine's own rustc and valgrind (callgrind); taken on x86_64 where both are there
#   COUNTER=qemu      rustc and qemu-x86_64 out of packages, with insncount.c as a plugin; else taken
#   BENCH_TOOLS=DIR   where the packages are kept between runs (about 900 MB); unset: a temporary folder
#
# For qemu: apt of Debian bookworm with its security archive (no root), dpkg-deb, and the kit, whose clang compiles the plugin and links.
here=$(cd "$(dirname "$0")" && pwd)
scratch=$(mktemp -d)
trap 'rm -rf "$scratch"' EXIT
kit=$(dirname "$(rt doc)")
llvm=$kit/toolchain/bin
case $(uname -m) in
aarch64) host=arm64 triple=aarch64-linux-gnu ;;
*) host=amd64 triple=x86_64-linux-gnu ;;
esac
if [ -z "${COUNTER:-}" ]; then
    COUNTER=qemu
    if [ "$host" = amd64 ] && command -v rustc >/dev/null && command -v valgrind >/dev/null; then COUNTER=here; fi
fi

# apt for one architecture, over lists of its own.
apt_for() { # ARCH COMMAND...
    a=$1 c=$2
    shift 2
    mkdir -p "$TOOLS/apt-$a/lists/partial" "$TOOLS/apt-$a/cache/archives/partial"
    "$c" -qq -o Dir::State::Lists="$TOOLS/apt-$a/lists" -o Dir::Cache="$TOOLS/apt-$a/cache" -o APT::Architecture="$a" -o APT::Architectures::="$a" -o APT::Architectures="$a" -o APT::Sandbox::User=root -o Acquire::Languages=none "$@"
}
unpack() { # ARCH FOLDER PACKAGES...
    a=$1 f=$2
    shift 2
    mkdir -p "$TOOLS/$f.debs" "$TOOLS/$f"
    (cd "$TOOLS/$f.debs" && apt_for "$a" apt-get download "$@")
    for d in "$TOOLS/$f.debs"/*.deb; do dpkg-deb -x "$d" "$TOOLS/$f"; done
    rm -rf "$TOOLS/$f.debs"
}
depends() { apt_for "$host" apt-cache depends "$1" | awk -v re="$2" '$1 == "Depends:" && $2 ~ re { print $2; exit }'; }
fetch() {
    apt_for "$host" apt-get update
    [ "$host" = amd64 ] || apt_for amd64 apt-get update
    std=$(depends libstd-rust-web-dev '^libstd-rust-web-[0-9]')
    lib=$(depends "$std" '^libllvm[0-9]')
    unpack "$host" host rustc-web "$std" "$lib" libedit2 libz3-4 libxml2 libicu72 libbsd0 libmd0 libffi8 libzstd1 zlib1g liblzma5 libtinfo6 \
        qemu-user libcapstone4 liburing2 libnuma1 libglib2.0-0 libpcre2-8-0 libgnutls30 libp11-kit0 libidn2-0 libunistring2 libtasn1-6 libnettle8 libhogweed6 libgmp10
    unpack amd64 target libstd-rust-web-dev libc6-dev libc6 libgcc-12-dev libgcc-s1
    "$llvm/clang" -O2 -Wall -fno-builtin -shared -fPIC -fvisibility=hidden -nostdlib -fuse-ld=lld "$here/insncount.c" -o "$TOOLS/insncount.so"
    : >"$TOOLS/ready"
}
if [ "$COUNTER" = qemu ]; then
    TOOLS=${BENCH_TOOLS:-$scratch/tools}
    mkdir -p "$TOOLS"
    TOOLS=$(cd "$TOOLS" && pwd)
    [ -f "$TOOLS/ready" ] || fetch
    libs=$TOOLS/host/usr/lib/$triple:$TOOLS/host/lib/$triple
fi

# rustc for x86-64: a static program, so that no loader is in what is counted.
rustc64() { # WORDS...
    set -- -C opt-level=3 -C codegen-units=1 -C panic=abort -C target-feature=+crt-static -C relocation-model=static --cap-lints allow "$@"
    case $COUNTER in
    here) rustc "$@" ;;
    qemu)
        LD_LIBRARY_PATH=$libs "$TOOLS/host/usr/bin/rustc" --sysroot "$TOOLS/target/usr" --target x86_64-unknown-linux-gnu \
            -C linker="$llvm/clang" -C link-arg=--target=x86_64-linux-gnu -C link-arg=--sysroot="$TOOLS/target" -C link-arg=-fuse-ld=lld "$@"
        ;;
    esac
}

# Runs a program, uncounted.
runs() { # PROGRAM ARGS...
    case $COUNTER in
    here) "$@" ;;
    qemu) LD_LIBRARY_PATH=$libs "$TOOLS/host/usr/bin/qemu-x86_64" -U LD_LIBRARY_PATH -cpu qemu64 "$@" ;;
    esac
}

# Runs a program and prints how many instructions it executed. The C library is kept from `rep`, which both counters count once a
# byte, and the processor once.
count() { # PROGRAM ARGS...
    case $COUNTER in
    here)
        GLIBC_TUNABLES=glibc.cpu.hwcaps=-ERMS,-FSRM,-AVX2,-AVX512F,-AVX512VL \
            valgrind --tool=callgrind --callgrind-out-file=/dev/null "$@" >/dev/null 2>"$scratch/n" || return
        sed -n 's/^==[0-9]*== Collected : //p' "$scratch/n"
        ;;
    qemu)
        LD_LIBRARY_PATH=$libs "$TOOLS/host/usr/bin/qemu-x86_64" -U LD_LIBRARY_PATH -cpu qemu64 -plugin "$TOOLS/insncount.so,out=$scratch/n" "$@" >/dev/null || return
        cat "$scratch/n"
        ;;
    esac
}

# The instructions of one call: a run with as many calls as told and one with twice as many, and the difference.
per_call() { # CALLS PROGRAM ARGS...
    calls=$1
    shift
    lo=$(count "$@" "$calls")
    hi=$(count "$@" $((2 * calls)))
    awk -v lo="$lo" -v hi="$hi" -v n="$calls" 'BEGIN { printf "%.1f\n", (hi - lo) / n }'
}

versions() {
    case $COUNTER in
    here) rustc -vV ;;
    qemu) LD_LIBRARY_PATH=$libs "$TOOLS/host/usr/bin/rustc" -vV ;;
    esac | sed -n 's/^rustc /Rust: rustc /p; s/^LLVM version/Rust: LLVM/p'
    echo "Rattle: $(head -n 1 "$kit/KIT-ID"), $("$llvm/clang" --version | head -n 1)"
    case $COUNTER in
    here) echo "counter: $(valgrind --version), callgrind" ;;
    qemu) echo "counter: $(LD_LIBRARY_PATH=$libs "$TOOLS/host/usr/bin/qemu-x86_64" --version | head -n 1), -cpu qemu64" ;;
    esac
}
