# For the benchmarks: what they need beside the kit and Rust's toolchain. They install nothing; where something is missing they say which of
# Debian's packages has it, and end. Sourced; wants a folder in $build.

missing() {
    echo "$1 is missing: install it as root, on Debian by 'apt-get install $2'" >&2
    exit 1
}

need_openssl() {
    echo '#include <openssl/des.h>' | cc -E -x c - > "$build/header" 2>&1 || missing "OpenSSL's header openssl/des.h" libssl-dev
}

need_valgrind() {
    command -v valgrind > "$build/valgrind-path" || missing "the program valgrind" valgrind
}
