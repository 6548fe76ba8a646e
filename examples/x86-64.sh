# Sourced by examples/run.sh and bench/run.sh in the repository's root: how x86-64 programs are built and run here.
# The archive of the crate capi_c links only into x86-64 programs; on Arm they are cross-built with Debian's packages,
# linked statically, and run through its emulator.
# Sets CC, CXX, LINK, RUST_TARGET, RUN and LIB. In the environment, CAPI_FOLDER names a folder with a libcapi.a that was
# made before, and TRY_MACHINE=aarch64 tries Arm's way on x86-64.

cross=target/x86-64

machine=${TRY_MACHINE:-$(uname -m)}
case $machine in
x86_64)
    CC=gcc CXX=g++ LINK= RUN= RUST_TARGET= ;;
aarch64)
    CC=x86_64-linux-gnu-gcc CXX=x86_64-linux-gnu-g++ LINK="-static -L $cross" RUN=qemu-x86_64
    RUST_TARGET="--target x86_64-unknown-linux-gnu -C linker=$CC -C target-feature=+crt-static -L native=$cross" ;;
*)
    echo "no way is known to build x86-64 programs on $machine" >&2
    exit 2 ;;
esac

# need COMMAND PACKAGES: stops where the command is not there
need() {
    command -v "$1" >/dev/null && return
    echo "$1 is missing; Debian: apt-get install $2" >&2
    exit 2
}

case $machine in
x86_64) need gcc "gcc libc6-dev" ;;
aarch64)
    need "$CC" "gcc-x86-64-linux-gnu libc6-dev-amd64-cross"
    need "$RUN" qemu-user ;;
esac

# The libm.a of libc6-dev-amd64-cross (Debian 12) is a script that names files of libc6-dev:amd64. One that names its own
# stands first.
of_package=/usr/x86_64-linux-gnu/lib
if [ "$machine" = aarch64 ] && [ -f $of_package/libm.a ]; then
    mkdir -p $cross
    LC_ALL=C sed "s|/usr/lib/x86_64-linux-gnu/|$of_package/|g" $of_package/libm.a >$cross/libm.a
fi

LIB=${CAPI_FOLDER:-target/staticlib}
if [ -z "${CAPI_FOLDER:-}" ]; then
    (cd crates/capi_c && rt lib >&2)
    mkdir -p $LIB
    cp crates/capi_c/out/libcapi_c.a $LIB/libcapi.a
    echo "$LIB/libcapi.a has the functions of capi_c that are marked #[unsafe(no_mangle)]"
fi
