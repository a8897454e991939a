# The tests of the Debian packages and of the Cargo package, which tests/packages reads and runs by calling in_debian and
# in_cargo. Its functions and variables are used here, such as `try`, `links_lead`, `rust_program`, `$made` and `$room`.
# shellcheck shell=bash disable=SC2154

# ---- Debian packages

libraries=./usr/lib/x86_64-linux-gnu

# deb PACKAGE ARCHITECTURE: prints the file name of a package.
deb() {
  echo "$made/$1_${version}_$2.deb"
}

# licence_words: prints the words of a licence from its permission on.
licence_words() {
  sed -n '/^ *Permission/,$p' | grep -oE '[A-Za-z0-9]+'
}

# same_licence FILE: whether a file states the licence.
same_licence() {
  cmp <(licence_words <"$1") <(licence_words <"$root/LICENSE") && grep -q '^Copyright: .* Caldrosk' "$1"
}

# describes_version PACKAGE: whether the changelogs of an unpacked package have its version.
describes_version() {
  local folder=unpacked/usr/share/doc/$1
  zcat "$folder/changelog.gz" | grep -q "^## $port " \
    && zcat "$folder/changelog.Debian.gz" | grep -qF "caldrosk ($version) "
}

# depends PACKAGE ARCHITECTURE DEPENDS: whether a package depends on exactly these packages.
depends() {
  diff <(dpkg-deb -f "$(deb "$1" "$2")" Depends) <(printf '%s' "${3:+$3$'\n'}")
}

# libc_of FILE..: prints the dependency on the C library whose symbols programs or shared objects use.
libc_of() {
  echo "libc6 (>= $(objdump -T "$@" | grep -oE 'GLIBC_[0-9.]+' | sort -uV | tail -n 1 | cut -c7-))"
}

# control FILE NAME: prints a file of the control data of a package.
control() {
  dpkg-deb --ctrl-tarfile "$1" | tar -xO "./$2"
}

# has_triggers: whether the package of the shared object renews the linker's cache, and states what programs linked to
# it depend on.
has_triggers() {
  local file
  file=$(deb "libvt100-$major" amd64)
  diff <(control "$file" triggers) <(echo 'activate-noawait ldconfig') \
    && diff <(control "$file" shlibs) <(echo "libvt100 $major libvt100-$major (>= $version)")
}

# has_checksums: whether the control data of the unpacked package has the checksum of each file.
has_checksums() {
  dpkg-deb -e "$1" control && (cd unpacked && md5sum --check --quiet --strict ../control/md5sums) \
    && diff <(cd unpacked && find usr -type f | sort) <(sed 's/^[^ ]* .//' control/md5sums | sort)
}

# lists PACKAGE ARCHITECTURE: whether a package contains exactly the files that standard input names, apart
# from directories, the licence, the changelogs and the overrides for lintian, all owned by root.
lists() {
  local file
  file=$(deb "$1" "$2")
  [ "$(dpkg-deb -f "$file" Package Version Architecture)" = \
    "$(printf 'Package: %s\nVersion: %s\nArchitecture: %s' "$1" "$version" "$2")" ] || return
  dpkg-deb -c "$file" >listed
  if grep -v ' root/root ' listed || grep -v ' \./usr/bin/.' listed | grep -vE '^(drwxr-xr-x|-rw-r--r--|lrwxrwxrwx) ' \
    || grep ' \./usr/bin/.' listed | grep -v '^-rwxr-xr-x '; then return 1; fi
  rm -rf unpacked && dpkg-deb -x "$file" unpacked && same_licence "unpacked/usr/share/doc/$1/copyright" \
    && describes_version "$1" && has_checksums "$file" \
    && { cat; printf "./usr/share/doc/$1/%s\n" changelog.gz changelog.Debian.gz copyright; } | sort \
    | diff - <(grep -v '^d' listed | awk '{ print $6 }' | grep -vx "./usr/share/lintian/overrides/$1" | sort)
}

# An empty system into which dpkg installs, with the package of the C library marked as installed.
make_system() {
  mkdir -p system/var/lib/dpkg/{info,updates,triggers}
  touch system/var/lib/dpkg/info/libc6.{list,md5sums}
  printf 'Package: libc6\nStatus: install ok installed\nVersion: 2.36\nArchitecture: amd64\n%s\n%s\n' \
    'Maintainer: nobody' 'Description: none' >system/var/lib/dpkg/status
}

install_debs() {
  local debs
  mapfile -t debs < <(find "$made" -name '*_amd64.deb' -o -name '*_all.deb')
  make_system && dpkg --root="$room/system" --force-not-root --force-script-chrootless \
    --log=/dev/null -i "${debs[@]}" && ! dpkg --root="$room/system" --audit | grep .
}

compile_installed() {
  local folder=$room/system/usr
  cc -o installed "$folder/share/doc/libvt100-dev/examples/show.c" "-I$folder/include" \
    "-L$folder/lib/x86_64-linux-gnu" -lvt100
}

# asks_pkg_config: whether the installed pkg-config file has the system's directories.
asks_pkg_config() {
  local folder=$room/system/usr/lib/x86_64-linux-gnu/pkgconfig
  PKG_CONFIG_LIBDIR=$folder pkg-config --variable=libdir vt100 | grep -qx /usr/lib/x86_64-linux-gnu \
    && PKG_CONFIG_LIBDIR=$folder pkg-config --variable=includedir vt100 | grep -qx /usr/include
}

# passes_lintian: whether lintian finds no error and nothing to warn of, apart from what the packages explain.
passes_lintian() {
  local allowed=()
  [ "$(id -u)" -ne 0 ] || allowed=(--allow-root)
  lintian "${allowed[@]}" --fail-on error,warning "$made"/*.deb
}

# Prints the files of the package with the programs, apart from its documents.
tool_files() {
  local pair
  for pair in $tools; do
    printf './usr/%s\n' "bin/${pair#*:}" "share/man/man1/${pair#*:}.1.gz"
  done
}

in_debian() {
  try 'Debian: runtime' lists "libvt100-$major" amd64 <<END
$libraries/libvt100.so.$major
$libraries/libvt100.so.$major.$minor
END
  try 'Debian: development' lists libvt100-dev amd64 <<END
./usr/include/vt100.h
$libraries/libvt100.a
$libraries/libvt100.so
$libraries/pkgconfig/vt100.pc
$(printf './usr/share/doc/libvt100-dev/%s.md\n' DIFFERENCES RUNNING SECURITY SEQUENCES)
$(cd bindings/c && printf './usr/share/doc/libvt100-dev/%s\n' examples/*)
END
  if [ -n "$tools" ]; then try 'Debian: programs' lists caldrosk-tools amd64 < <(tool_files); fi
  if has objdump; then
    try 'Debian: dependencies of the runtime' depends "libvt100-$major" amd64 "$(libc_of "$prefix/lib/libvt100.so")"
    if [ -n "$tools" ]; then
      try 'Debian: dependencies of the programs' depends caldrosk-tools amd64 "$(libc_of "$room"/moved/caldrosk/bin/*)"
    fi
  fi
  try 'Debian: dependencies for development' depends libvt100-dev amd64 "libvt100-$major (= $version)"
  try 'Debian: triggers' has_triggers
  try 'Debian: installed' install_debs
  if [ -n "$tools" ]; then try 'Debian: programs run' run_tools system/usr; fi
  try 'Debian: links' links_lead system/usr/share/doc
  has lintian && try 'Debian: lintian' passes_lintian
  if has cc; then
    try 'Debian: a program' compile_installed
    try 'Debian: shared object' example vtshow env "LD_LIBRARY_PATH=$room/system/usr/lib/x86_64-linux-gnu" \
      ./installed
  fi
  has pkg-config && try 'Debian: pkg-config' asks_pkg_config
}

# ---- the instructions of the tarball

# instructions PART: prints the commands that README has for a language, with the path of the unpacked tarball.
instructions() {
  sed -n "/^$1  /,/^[A-Z]/p" moved/caldrosk/README \
    | sed "1!{/^[A-Z]/d}; s/^$1 *//; s/^ *//; s|FOLDER|$room/moved/caldrosk|g"
}

# follows_c: whether programs that are compiled as README says run, the first one with the shared object. Neither finds
# the library otherwise.
follows_c() {
  local commands source=moved/caldrosk/share/doc/caldrosk/examples/text.c
  mapfile -t commands < <(instructions 'C and C++' | grep -E '^(export|cc) ')
  [ ${#commands[@]} -eq 3 ] && mkdir followed && cp "$source" followed/program.c && cd followed || return
  [ "$(env -i PATH=/usr/bin:/bin bash -ec "${commands[0]}; ${commands[1]}")" = 'this text is RED' ] \
    && readelf -d a.out | grep -q 'libvt100\.so' && rm a.out \
    && env -i PATH=/usr/bin:/bin bash -ec "${commands[2]}" && [ "$(env -i ./a.out)" = 'this text is RED' ]
}

# follows_python: whether a program runs with the variables of README.
follows_python() {
  local commands
  mapfile -t commands < <(instructions Python | grep '^export ')
  [ ${#commands[@]} -eq 1 ] \
    && env -i PATH="$PATH" PYTHONDONTWRITEBYTECODE=1 bash -ec "${commands[0]}; python3 program.py" \
    | grep "^$room/moved/"
}

# follows_terminfo: whether the terminal type of README is found with its variables.
follows_terminfo() {
  local words
  words=$(instructions TERM | grep -oE 'TERM=[^ ]+ TERMINFO=[^ ]+')
  # shellcheck disable=SC2086 # these are words
  env -i PATH="$PATH" $words tput clear | grep -q '\[2\?J'
}

# follows_rust: whether the dependency in README is the directory of the crate.
follows_rust() {
  instructions Rust | grep -xF "vt100 = { path = \"$room/moved/caldrosk/rust\" } in Cargo.toml" \
    && grep -x 'name = "vt100"' moved/caldrosk/rust/Cargo.toml
}

in_tarball() {
  if has cc pkg-config; then try 'tarball: README for C' follows_c; fi
  if has python3; then try 'tarball: README for Python' follows_python; fi
  if [ -e "$room/moved/caldrosk/share/terminfo" ] && has tput; then try 'tarball: README for TERM' follows_terminfo; fi
  try 'tarball: README for Rust' follows_rust
  try 'tarball: link to an example' grep -F '](../../../python/examples/replies.py)' \
    moved/caldrosk/share/doc/caldrosk/RUNNING.md
}

# ---- the Cargo package

unpack_crate() {
  tar -xf "$made/$unpacked.crate" && cmp "$unpacked/LICENSE" "$root/LICENSE" \
    && cmp "$unpacked/lib/x86_64-linux/libvt100.a" "$prefix/lib/libvt100.a" \
    && grep -qx "version = \"$crate+$port\"" "$unpacked/Cargo.toml" && ls "$unpacked/examples/replies.rs"
}

# vendor NAME VERSION DEPENDENCIES SOURCE: adds a crate to the directory that replaces the registry.
vendor() {
  local folder=vendor/$1
  mkdir -p "$folder/src" && echo "$4" >"$folder/src/lib.rs" && echo '{ "files": {} }' >"$folder/.cargo-checksum.json" \
    && printf '[package]\nname = "%s"\nversion = "%s"\nedition = "2021"\n[dependencies]\n%s\n' "$1" "$2" "$3" \
      >"$folder/Cargo.toml"
}

# replaces_crate: whether a project that has locked the original crate, which a dependency needs, too, runs with the
# package after the steps in bindings/rust/README.md.
replaces_crate() {
  mkdir -p patched/src patched/.cargo && cd patched || return
  vendor vt100 "$crate" '' '' && vendor middle 1.0.0 'vt100 = "0.18"' 'pub use vt100::Parser;' || return
  printf '[source.crates-io]\nreplace-with = "vendored"\n[source.vendored]\ndirectory = "vendor"\n' >.cargo/config.toml
  printf '[package]\nname = "patched"\nversion = "0.1.0"\nedition = "2021"\n[dependencies]\n%s\n' \
    $'middle = "1"\nvt100 = "0.18"\n[workspace]' >Cargo.toml
  sed 's/vt100::Parser::default/middle::Parser::default/' "$root/bindings/rust/examples/synopsis.rs" >src/main.rs
  cargo generate-lockfile --quiet --offline && grep -x "version = \"$crate\"" Cargo.lock || return
  sed -n '/^\[patch.crates-io\]$/,/^```$/p' "$root/bindings/rust/README.md" | grep -v '^```' | sed "s|\"vt100-|\"../vt100-|" >>Cargo.toml
  cargo update --quiet --offline -p vt100 && cargo run --quiet --offline && ! grep -x "version = \"$crate\"" Cargo.lock
}

# with_target ARCH OS ENV POINTER_WIDTH ENDIAN TARGET COMMAND..: runs a command with the variables that cargo sets for
# a build script that is run for this target on an x86-64 host.
with_target() {
  env -u VT100_LIB_DIR HOST=x86_64-unknown-linux-gnu TARGET="$6" CARGO_CFG_TARGET_ARCH="$1" CARGO_CFG_TARGET_OS="$2" \
    CARGO_CFG_TARGET_ENV="$3" CARGO_CFG_TARGET_POINTER_WIDTH="$4" CARGO_CFG_TARGET_ENDIAN="$5" "${@:7}"
}

# finds_no_library ARCH OS ENV POINTER_WIDTH ENDIAN TARGET: whether the build script names a target for which it has no
# library, although pkg-config knows one for the host.
finds_no_library() {
  ! CARGO_MANIFEST_DIR=$room/targets PKG_CONFIG_PATH=$prefix/lib/pkgconfig with_target "$@" ./build-script \
    >found 2>said && grep "no library for the target $6: name the folder of one in VT100_LIB_DIR" said && ! grep link found
}

# takes NAME ARCH OS ENV POINTER_WIDTH ENDIAN TARGET: whether the build script takes the archive in lib/NAME.
takes() {
  CARGO_MANIFEST_DIR=$room/targets with_target "${@:2}" ./build-script | grep -x ".*=native=$room/targets/lib/$1"
}

# is_for_its_target: whether the build script takes the archives in the package only for their targets, and asks
# pkg-config only for the host.
is_for_its_target() {
  local native='x86_64 linux gnu 64 little x86_64-unknown-linux-gnu'
  local arm='aarch64 linux gnu 64 little aarch64-unknown-linux-gnu'
  local musl='x86_64 linux musl 64 little x86_64-unknown-linux-musl'
  local windows='x86_64 windows gnu 64 little x86_64-pc-windows-gnu'
  mkdir -p targets/lib/{x86_64-linux,aarch64-linux,x86_64-windows} \
    && touch targets/lib/{x86_64-linux,aarch64-linux,x86_64-windows}/libvt100.a \
    && rustc --edition 2021 -o build-script "$unpacked/build.rs" || return
  # shellcheck disable=SC2086 # these are words
  takes x86_64-linux $native && takes aarch64-linux $arm && takes x86_64-linux $musl && takes x86_64-windows $windows \
    && finds_no_library aarch64 linux musl 64 little aarch64-unknown-linux-musl \
    && finds_no_library x86_64 linux gnu 32 little x86_64-unknown-linux-gnux32 \
    && finds_no_library aarch64 linux gnu 64 big aarch64_be-unknown-linux-gnu \
    && finds_no_library riscv64 linux gnu 64 little riscv64gc-unknown-linux-gnu \
    && finds_no_library x86_64 windows msvc 64 little x86_64-pc-windows-msvc \
    && finds_no_library x86_64 macos '' 64 little x86_64-apple-darwin || return
  has pkg-config || return 0
  # shellcheck disable=SC2086 # these are words
  CARGO_MANIFEST_DIR=$room PKG_CONFIG_PATH=$prefix/lib/pkgconfig with_target $native ./build-script \
    | grep -x ".*=native=$prefix/lib/pkgconfig/../../lib" || return
  # shellcheck disable=SC2086 # these are words
  ! CARGO_MANIFEST_DIR=$room PKG_CONFIG_LIBDIR=$room/targets PKG_CONFIG_PATH='' with_target $native ./build-script \
    2>said && grep ' x86_64-unknown-linux-gnu: .*, or have pkg-config find vt100$' said
}

in_cargo() {
  try 'crate is unpacked' unpack_crate
  has rustc && try 'crate: a library for the target' is_for_its_target
  try 'crate: a program' rust_program of-crate "$room/$unpacked"
  try 'crate: in place of the original' replaces_crate
  try 'crate: replies' env CARGO_TARGET_DIR="$room/replies" \
    cargo run --quiet --offline --example replies --manifest-path "$unpacked/Cargo.toml"
  try 'crate: links' links_lead "$unpacked"
}
