#!/usr/bin/env bash
# Installs what builds and runs the host's programs, where it is missing: `make host-tools`.
# The proved archive is for x86-64. There nothing is installed: gcc and cargo are enough. On another processor the host's
# programs are built for x86-64 too and run under an emulator; that takes a C compiler and Rust's library for x86-64, and
# the emulator, all from Debian's packages.
# With --check it installs nothing: it names what is missing, a line each, and fails if that is anything.
set -euo pipefail

missing() {
    [ "$(uname -m)" != x86_64 ] || return 0
    command -v x86_64-linux-gnu-gcc >/dev/null || echo "x86_64-linux-gnu-gcc, a C compiler for x86-64"
    command -v qemu-x86_64 >/dev/null || echo "qemu-x86_64, an emulator of x86-64"
    [ -d /usr/lib/rustlib/x86_64-unknown-linux-gnu ] || echo "Rust's library for x86-64, with the rustc and cargo that go with it"
}

lacking=$(missing)
if [ "${1:-}" = --check ]; then
    [ -z "$lacking" ] || { printf '%s\n' "$lacking"; exit 1; }
    exit 0
fi
if [ -z "$lacking" ]; then
    echo "host-tools: nothing to install on this $(uname -m) machine" >&2
    exit 0
fi

packages=(rustc-web cargo-web libstd-rust-web-dev:amd64 gcc-x86-64-linux-gnu libc6-dev-amd64-cross libc6:amd64 libgcc-s1:amd64 qemu-user)
if ! command -v apt-get >/dev/null || [ "$(id -u)" != 0 ]; then
    printf 'host-tools: missing on this %s machine, where the proved archive for x86-64 needs them:\n%s\n' "$(uname -m)" "$lacking" >&2
    echo "host-tools: to install them takes Debian's apt-get and root: ${packages[*]}" >&2
    exit 1
fi
echo "host-tools: installing ${packages[*]}, since the proved archive is for x86-64 and this machine is $(uname -m)" >&2
dpkg --add-architecture amd64
apt-get update -q >&2
DEBIAN_FRONTEND=noninteractive apt-get install -y -q --no-install-recommends "${packages[@]}" >&2
