#!/usr/bin/env bash
# Installs to a temporary prefix, builds the example with pkg-config and with CMake, and runs both on the sample file.
#     install.sh COMPILER RUNNER MAKE..
set -euo pipefail
cd "$(dirname "$0")/../.."
compiler=$1
read -ra runner <<<"$2"
shift 2
prefix=$(mktemp -d)
trap 'rm -rf "$prefix"' EXIT
"$@" install PREFIX="$prefix/usr"
"${runner[@]}" "$prefix/usr/bin/szelmikra" sheet samples/chair.igs >"$prefix/expected"
cat samples/chair.igs >>"$prefix/expected"
built=0

works() {
    "${runner[@]}" "$2" samples/chair.igs | cmp - "$prefix/expected" || { echo "install: the example of $1 prints something else"; exit 1; }
    built=$((built + 1))
}

export PKG_CONFIG_PATH=$prefix/usr/lib/pkgconfig CMAKE_PREFIX_PATH=$prefix/usr
if command -v pkg-config >/dev/null; then
    # shellcheck disable=SC2046
    "$compiler" -std=c++17 -o "$prefix/by-pkg-config" host/example/example.cpp $(pkg-config --cflags --libs szelmikra)
    works pkg-config "$prefix/by-pkg-config"
else
    echo 'install: no pkg-config here, that part is left out'
fi
if command -v cmake >/dev/null; then
    cmake -S host/example -B "$prefix/by-cmake" -DCMAKE_CXX_COMPILER="$compiler" >"$prefix/log" 2>&1 &&
        cmake --build "$prefix/by-cmake" >>"$prefix/log" 2>&1 || { cat "$prefix/log"; exit 1; }
    works CMake "$prefix/by-cmake/example"
else
    echo 'install: no CMake here, that part is left out'
fi
[ "$built" -gt 0 ] || { echo 'install: neither pkg-config nor CMake is here, so nothing was tried'; exit 1; }
echo "install: the installed files work, example built $built times"
