# Sourced by rust/setup, rust/test, acpi-table and oracle/run: which cargo builds for x86-64 here, and what runs such a program.
# `packages` is what that takes, by Debian's names; `has_tools` says whether it is there; `find_tools` sets `cargo`, and `runner`, which
# is empty on x86-64, or calls `not_run WHY`, which the script that sources this defines. Only rust/setup installs anything.
target=x86_64-unknown-linux-gnu
cargo=cargo runner=
case $(uname -m) in
x86_64) packages=(rustc cargo) ;;
aarch64 | arm64) packages=(rustc cargo "libstd-rust-dev:amd64" gcc-x86-64-linux-gnu libc6-dev-amd64-cross qemu-user) ;;
*) packages=() ;;
esac

# The first rustc on the path whose standard library is there for x86-64 and that has its cargo beside it.
rustc_for_target() {
    local r libs
    while read -r r; do
        libs=$("$r" --print target-libdir --target "$target" 2>/dev/null) || continue
        compgen -G "$libs/libstd-*.rlib" >/dev/null && [ -x "${r%/*}/cargo" ] && { echo "$r"; return 0; }
    done < <(type -ap rustc)
    return 1
}

has_tools() {
    if [ "$(uname -m)" = x86_64 ]; then
        command -v cargo >/dev/null
    else
        rustc=$(rustc_for_target) && command -v x86_64-linux-gnu-gcc >/dev/null && command -v qemu-x86_64 >/dev/null
    fi
}

# From what has_tools found on 64-bit Arm.
use_cross() {
    cargo=${rustc%/*}/cargo
    runner=qemu-x86_64
    # libstd-rust-dev brings the C library of x86-64 to its own place; that of the cross compiler would be mixed up with it.
    [ -e /lib64/ld-linux-x86-64.so.2 ] ||
        runner="$runner -L $(realpath "$(dirname "$(x86_64-linux-gnu-gcc -print-file-name=libc.so.6)")/..")"
    export RUSTC=$rustc
    export CARGO_TARGET_X86_64_UNKNOWN_LINUX_GNU_LINKER=x86_64-linux-gnu-gcc
    export CARGO_TARGET_X86_64_UNKNOWN_LINUX_GNU_RUNNER=$runner
}

find_tools() {
    [ ${#packages[@]} -gt 0 ] || not_run "the library is for x86-64, this is $(uname -m)"
    has_tools || not_run "not all of ${packages[*]} are there; rust/setup installs them"
    [ "$(uname -m)" = x86_64 ] || use_cross
    export CARGO_BUILD_TARGET=$target
}
