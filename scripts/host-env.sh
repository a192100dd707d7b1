# Sourced by the gate, the Makefile's commands, the demo and the launcher: how host programs are built and run here.
# It sets variables and does nothing else; where something is missing it says so and fails. `make host-tools` installs it.
# On x86-64 programs run as they are. On another processor they are built for x86-64, as the proved archive is, and run
# under an emulator.

# TAPECARD_CC compiles C for the archive, TAPECARD_RUN stands before a program, TAPECARD_BIN is where cargo leaves host/'s
TAPECARD_CC=gcc
TAPECARD_RUN=""

if [ "$(uname -m)" != x86_64 ]; then
    if ! "$(dirname "${BASH_SOURCE[0]}")/host-tools.sh" --check >&2; then
        echo "the above is missing on this $(uname -m) machine: run make host-tools" >&2
        return 1
    fi
    TAPECARD_CC=x86_64-linux-gnu-gcc
    TAPECARD_RUN=qemu-x86_64
    # Debian's cargo and rustc, which have the library for x86-64
    PATH=/usr/bin:$PATH
    export CARGO_BUILD_TARGET=x86_64-unknown-linux-gnu
    export CARGO_TARGET_X86_64_UNKNOWN_LINUX_GNU_LINKER=x86_64-linux-gnu-gcc
    export CARGO_TARGET_X86_64_UNKNOWN_LINUX_GNU_RUNNER=qemu-x86_64
    # An emulated program that starts another while one of its own threads is at work can stop for good: one test at a time.
    export RUST_TEST_THREADS=1
fi

TAPECARD_BIN=target/${CARGO_BUILD_TARGET:+$CARGO_BUILD_TARGET/}release
export TAPECARD_CC TAPECARD_RUN TAPECARD_BIN PATH
