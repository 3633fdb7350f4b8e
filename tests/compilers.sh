# shellcheck shell=bash
# The C and C++ compilers for x86-64 of the tests of include/skid_arena.h, and how its programs run. Sourced after tests/lib.sh, from the
# top folder of the repository.

# need_compilers: gcc and clang, for C and C++. What is missing comes from Debian's packages.
need_compilers() {
    need_cross || return 1
    if [ "$(uname -m)" = x86_64 ]; then
        command -v gcc >/dev/null && command -v g++ >/dev/null || install_packages gcc g++ libc6-dev || return 1
    else
        command -v x86_64-linux-gnu-g++ >/dev/null || install_packages g++-x86-64-linux-gnu || return 1
    fi
    command -v clang >/dev/null || install_packages clang
}

if [ "$(uname -m)" = x86_64 ]; then
    gcc=gcc gxx=g++ clang=clang clangxx=clang++
    run=()
else
    gcc=x86_64-linux-gnu-gcc gxx=x86_64-linux-gnu-g++
    clang='clang --target=x86_64-linux-gnu' clangxx='clang++ --target=x86_64-linux-gnu'
    run=(/usr/bin/qemu-x86_64 -L /)
fi

# Every dialect by every compiler, a line each.
dialects() {
    local std
    for std in c99 c11 c17; do
        echo "$gcc -std=$std"
        echo "$clang -std=$std"
    done
    echo "$gxx -x c++ -std=c++17"
    echo "$clangxx -x c++ -std=c++17"
}

strict='-Wall -Wextra -Wconversion -Wsign-conversion -pedantic -Werror -Iinclude'
kernel='-ffreestanding -mgeneral-regs-only -mno-red-zone -nostdlib'
