# The packages with the archives for further systems, which bindings/package makes by calling make_native for each target
# that natives prints, and the wheel for musl. This file uses its functions and variables.
# shellcheck shell=bash disable=SC2154

write_native_readme() {
  cat <<END
Caldrosk $version: a terminal screen in memory, formally verified, for $1. The licence is MIT (LICENSE).
The proofs are about the library before it was compiled: the compiler for $1 is trusted, not verified.
This folder may be moved. With FOLDER for its path, and CC for a compiler for $1 (gcc or clang):

    CC program.c -IFOLDER/include FOLDER/lib/libvt100.a

The program then needs no file of this folder when it runs. The file include/vt100.h documents all calls, and the folder
examples has programs. The folder doc explains which sequences the library supports (SEQUENCES.md), and what an untrusted
program can do (SECURITY.md).
END
}

# make_native TARGET: packages the archive for a target, and copies it to its place in the crate.
make_native() {
  local name=vt100-$version-$1
  local folder=$room/$name
  put 644 "$native/$1/lib/libvt100.a" "$room/crate/lib/$1/libvt100.a"
  put 644 "$native/$1/lib/libvt100.a" "$folder/lib/libvt100.a"
  put 644 "$native/$1/include/vt100.h" "$folder/include/vt100.h"
  cp "$tree/LICENSE" "$tree/CHANGELOG.md" "$folder"
  put_documents "$folder/doc"
  mv "$folder/doc/examples" "$folder"
  "$tree/bindings/links" "$folder"
  write_native_readme "$1" >"$folder/README"
  settle "$folder"
  pack "$room" "$name" "$made/$name.tar.gz"
}

# natives: prints the targets of which there is an archive. Where there is only an object file, nothing can be run.
natives() {
  [ -z "$native" ] || (cd "$native" && for name in */lib; do [ ! -d "$name" ] || echo "${name%/lib}"; done)
}

# make_musl_wheel: builds the wheel for musl, whose shared object contains the same archive.
make_musl_wheel() {
  has musl-gcc 'wheel for musl' || return 0
  mkdir "$work/musl"
  musl-gcc -shared -o "$work/musl/$soname" -Wl,-soname,"$soname" -Wl,-z,defs,-z,now -Wl,--build-id=none \
    -Wl,--version-script,"$tree/bindings/portable/source/vt100.map" -Wl,--whole-archive "$prefix/lib/libvt100.a" \
    -Wl,--no-whole-archive
  wheel_files | "$tree/bindings/wheel" "$crate.post$port" "$processor" "$work/musl/$soname" musl "$made"
}
