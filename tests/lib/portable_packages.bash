# The tests of the packages that contain the library as source in C, which tests/packages reads and runs by calling
# in_source, those of the wheel for musl, in_musl, and those of the archives for further systems, in_native. Its functions
# and variables are used here.
# shellcheck shell=bash disable=SC2154

# unpack_source: unpacks the source, which must compile with the command in its README.
unpack_source() {
  local command
  tar -xf "$made/vt100-$version-source.tar.gz" && mv "vt100-$version-source" of-source && cd of-source || return
  cmp LICENSE "$root/LICENSE" && cmp vt100.h "$source/vt100.h" && cmp vt100.c "$source/vt100.c" || return
  command=$(grep -x '    cc -O2 -c vt100.c heap.c' README) && $command && ls vt100.o heap.o && ! grep -rn '@[A-Z]*@' README ./*.txt
}

# compiles_source: whether the example that is compiled with these objects writes what vtshow writes.
compiles_source() {
  cc -I. examples/show.c vt100.o heap.o -o show && example vtshow ./show
}

# builds PREFIX: whether a program finds the library under PREFIX by pkg-config.
builds() {
  local flags
  flags=$(PKG_CONFIG_PATH=$(dirname "$(find "$1" -name vt100.pc)") pkg-config --cflags --libs vt100) || return
  # shellcheck disable=SC2086 # these are words
  cc of-source/examples/show.c $flags "-Wl,-rpath,$(dirname "$(find "$1" -name 'libvt100.*' | head -n 1)")" -o built \
    && example vtshow ./built
}

# cmake_project KIND WORD..: builds and installs the library with CMake, as KIND (ON for a shared object), and runs its
# tests. Compilers optimize nothing here, which would take most of the time.
cmake_project() {
  local folder=$room/cmake-$1
  cmake -S of-source -B "$folder" -DBUILD_SHARED_LIBS="$1" -DCMAKE_INSTALL_PREFIX="$folder/prefix" -DCMAKE_BUILD_TYPE=Debug \
    -DCMAKE_C_FLAGS='-Wall -Wextra -Werror' "${@:2}" && cmake --build "$folder" && ctest --test-dir "$folder" --output-on-failure \
    && cmake --install "$folder" && builds "$folder/prefix" || return
  [ "$1" = OFF ] || ! nm -D --defined-only "$folder"/prefix/lib*/libvt100.so | grep -v ' vt100_'
}

# finds_package: whether a project of CMake finds the installed library.
finds_package() {
  mkdir of-cmake && printf '%s\n' 'cmake_minimum_required(VERSION 3.13)' 'project(user LANGUAGES C)' \
    'find_package(vt100 1 REQUIRED)' 'add_executable(show ../of-source/examples/show.c)' \
    'target_link_libraries(show vt100::vt100)' >of-cmake/CMakeLists.txt \
    && cmake -S of-cmake -B of-cmake/build -DCMAKE_PREFIX_PATH="$room/cmake-OFF/prefix" && cmake --build of-cmake/build \
    && example vtshow of-cmake/build/show
}

# meson_project: builds and installs the library with Meson, and runs its tests.
meson_project() {
  meson setup meson of-source --prefix "$room/meson/prefix" --werror --buildtype debug && meson test -C meson && meson install -C meson \
    && builds "$room/meson/prefix"
}

# install_sdist: builds a wheel from the sdist in an environment that has no other package, with a compiler alone, which is
# called once, and installs it. It must have the files of the prepared wheel.
install_sdist() {
  # shellcheck disable=SC2016 # awk and the script expand the names
  local in_wheel='NR > 1 { print $1 }' counting=('#!/bin/sh' 'echo "$*" >>"${0%/*}/calls"' 'exec cc "$@"')
  mkdir counting wheels && printf '%s\n' "${counting[@]}" >counting/cc && chmod +x counting/cc && python3 -m venv compiled \
    || return
  env -i PATH=/usr/bin:/bin CC="$room/counting/cc" CFLAGS=-O0 "$room/compiled/bin/pip" wheel --no-index \
    --no-deps --disable-pip-version-check -w wheels "$made/vt100-$crate.post$port.tar.gz" \
    && [ "$(wc -l <counting/calls)" -eq 1 ] \
    && diff <(python3 -m zipfile --list wheels/*.whl | awk "$in_wheel" | sort) \
      <(python3 -m zipfile --list "$made"/*-manylinux*_x86_64.whl | awk "$in_wheel" | sort) || return
  "$room/compiled/bin/pip" install --no-index --disable-pip-version-check wheels/*.whl \
    && compiled/bin/python -m pip show --files vt100 >shown && grep -qx "Version: $crate.post$port" shown \
    && env -i PATH=/usr/bin:/bin bash -c "$(declare -f python_program); room=$room; python_program compiled/bin/python compiled" \
    && cmp compiled/share/man/man1/vt100-share.1 environment/share/man/man1/vt100-share.1
}

# lacks_compiler: whether the sdist, without a compiler, is refused with the reason.
lacks_compiler() {
  mkdir bin && ln -s "$(type -P env)" bin/env
  ! env -i PATH="$room/bin" "$room/compiled/bin/python" -m pip wheel --no-index --no-deps --disable-pip-version-check \
    "$made/vt100-$crate.post$port.tar.gz" >said 2>&1 && grep 'no C compiler: install one, or name it in CC' said
}

# rust_from_source NAME TARGET WORD..: runs a program with the crate, whose source is compiled. The other words are the
# variables for cargo.
rust_from_source() {
  rust_project "$1" "$room/$unpacked" && sed -i 's/"std"\]/"std", "portable"]/' "$1/Cargo.toml" \
    && env CARGO_NET_OFFLINE=true CARGO_TARGET_DIR="$room/$1/target" "${@:3}" \
      cargo run --quiet ${2:+--target "$2"} --manifest-path "$1/Cargo.toml" \
    && find "$1/target" -path '*/out/libvt100.a' | grep .
}

# names_compiler: whether the build script names the variable for a target without a compiler, and one that compiles for
# a different target. The source is empty, since compiling the library takes long.
names_compiler() {
  rustc --edition 2021 -o portable_pick "$unpacked/build.rs" && mkdir -p picked/portable && touch picked/portable/{vt100,heap}.c \
    || return
  local for_s390x=(env -i "PATH=$PATH" "OUT_DIR=$room/picked" "CARGO_MANIFEST_DIR=$room/picked" HOST=x86_64-unknown-linux-gnu
    TARGET=s390x-unknown-linux-gnu CARGO_CFG_TARGET_OS=linux CARGO_CFG_TARGET_ARCH=s390x CARGO_CFG_TARGET_ENV=gnu
    CARGO_CFG_TARGET_POINTER_WIDTH=64 CARGO_CFG_TARGET_ENDIAN=big CARGO_CFG_UNIX=)
  "${for_s390x[@]}" ./portable_pick 2>said && return 1
  grep 'no C compiler for the target s390x-unknown-linux-gnu: name one in CC_s390x_unknown_linux_gnu' said || return
  "${for_s390x[@]}" CC=cc ./portable_pick 2>said && return 1
  grep '__s390x__ is not defined' said || return
  "${for_s390x[@]}" CC=no-such-compiler ./portable_pick 2>said && return 1
  grep 'no-such-compiler cannot be run' said || return
  if has s390x-linux-gnu-gcc; then
    "${for_s390x[@]}" RUSTC_LINKER=s390x-linux-gnu-gcc ./portable_pick | grep -x "cargo:rustc-link-search=native=$room/picked"
  fi
}

in_source() {
  if has cc; then
    try 'source: README' unpack_source
    place=$room/of-source try 'source: a program' compiles_source
  fi
  if has cmake pkg-config; then
    try 'source: CMake' cmake_project OFF
    try 'source: CMake, shared object' cmake_project ON -DBUILD_TESTING=OFF
    try 'source: find_package' finds_package
  fi
  if has meson pkg-config; then try 'source: Meson' meson_project; fi
  if [ -x "$room/environment/bin/python" ]; then
    try 'sdist is installed' install_sdist
    try 'sdist without a compiler' lacks_compiler
  fi
  if has cargo; then
    try 'crate: compiled from source' rust_from_source of-portable ''
    if has rustc; then try 'crate: compiler for a target' names_compiler; fi
  fi
}

# loads_in_musl: whether a program for musl loads the shared object of the wheel for musl, and calls it.
loads_in_musl() {
  python3 -m zipfile -e "$made"/*-musllinux_1_2_x86_64.whl musl && grep -qx 'Tag: py3-none-musllinux_1_2_x86_64' \
    musl/*.dist-info/WHEEL && ! readelf -V "musl/vt100/libvt100.so.$major" | grep GLIBC || return
  musl-gcc "-I$prefix/include" "$root/bindings/c/examples/show.c" "musl/vt100/libvt100.so.$major" \
    "-Wl,-rpath,$room/musl/vt100" -o in-musl && example vtshow ./in-musl
}

in_musl() {
  if has musl-gcc python3; then try 'wheel for musl' loads_in_musl; fi
}

# unpack_native NAME: unpacks the archive for a target, which must be in the Cargo package, too, and nowhere else.
unpack_native() {
  local folder=vt100-$version-$1
  tar -xf "$made/$folder.tar.gz" && cmp "$folder/LICENSE" "$root/LICENSE" && cmp "$folder/include/vt100.h" "$prefix/include/vt100.h" \
    && cmp "$folder/lib/libvt100.a" "$native/$1/lib/libvt100.a" || return
  [ ! -d "$unpacked" ] || cmp "$unpacked/lib/$1/libvt100.a" "$native/$1/lib/libvt100.a"
}

# compiles_native NAME COMPILER WORD..: whether a program that is compiled as the README says works. The other words run it.
compiles_native() {
  local folder=vt100-$version-$1 command
  command=$(sed -n 's/^    CC //p' "$folder/README")
  # shellcheck disable=SC2086 # these are words
  "$2" ${command//FOLDER/$folder} -o "of-$1" || return
  "${@:3}" "./of-$1" | tr -d '\r' | cmp - <(echo 'this text is RED')
}

in_native() {
  local name
  for name in "$native"/*/lib; do
    name=${name%/lib}
    try "${name##*/}: tarball is unpacked" unpack_native "${name##*/}"
  done
  cp "$root/bindings/c/examples/text.c" "$room/program.c"
  if [ -d "$native/riscv64-linux" ] && has riscv64-linux-gnu-gcc qemu-riscv64; then
    try 'riscv64-linux: a program' compiles_native riscv64-linux riscv64-linux-gnu-gcc qemu-riscv64 -L /usr/riscv64-linux-gnu
  fi
  if [ -d "$native/x86_64-windows" ] && has x86_64-w64-mingw32-gcc-posix wine; then
    export WINEPREFIX=$room/wine
    try 'x86_64-windows: a program' compiles_native x86_64-windows x86_64-w64-mingw32-gcc-posix "$root/tests/lib/in_wine"
    wineserver -k 2>/dev/null
  fi
}
