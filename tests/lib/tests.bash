# What tests/bindings, tests/targets and tests/packages share: their options, tests that are counted and may take limited
# time, tools that may be missing, and the tests of the library for C. A script reads this file at the top of the
# repository.
# shellcheck shell=bash disable=SC2034,SC2154

root=$PWD
# shellcheck source=tests/lib/path.bash
. tests/lib/path.bash
exec </dev/null
room=$(mktemp -d)
trap 'end_job; rm -rf "$room"' EXIT
# The directory in which tests run, and the seconds that each may take.
place=.
limit=1800
seen=0
failed=0
missing=

# options USAGE COUNT NAME.. -- WORD..: sets each variable NAME to the path after --NAME among the words, or to nothing,
# and the array rest to the other words, of which there must be COUNT.
options() {
  local usage=$1 count=$2 names=" "
  shift 2
  while [ "$1" != -- ]; do
    printf -v "$1" ''
    names="$names$1 "
    shift
  done
  shift
  while [ $# -ge 2 ] && [[ $1 == --* && $names == *" ${1#--} "* ]]; do
    printf -v "${1#--}" %s "$(realpath "$2")"
    shift 2
  done
  rest=("$@")
  if [ $# -ne "$count" ] || [[ ${1-} == --* ]]; then
    echo "usage: $usage" >&2
    exit 2
  fi
}

# end_job: ends the present test, and all that it has started.
end_job() {
  [ -z "${job-}" ] || kill -s KILL -- "-$job" 2>/dev/null
  job=
}

# limited COMMAND..: runs a command, which may be a function, in a process group of its own, and ends it after $limit
# seconds. Processes that it leaves in the group are ended, too.
limited() {
  local status=0 clock
  set -m
  "$@" &
  job=$!
  { sleep "$limit" && echo "ended after $limit s" && kill -s KILL -- "-$job"; } &
  clock=$!
  set +m
  disown "$clock"
  wait "$job" 2>/dev/null || status=$?
  kill -s KILL -- "-$clock" 2>/dev/null
  end_job
  return "$status"
}

# leave_out WHAT: notes that a part of the tests does not run. tests/all counts these lines.
leave_out() {
  echo "left out: $1"
}

# try NAME COMMAND..: runs a command, and prints the end of its output if its status is not 0, and what it has left out.
try() {
  local name=$1 status=0
  shift
  seen=$((seen + 1))
  limited in_place "$@" >"$room/told" 2>&1 || status=$?
  grep '^left out: ' "$room/told" | sort -u
  [ "$status" -ne 0 ] || return 0
  failed=$((failed + 1))
  echo "failed: $name"
  tail -n 30 "$room/told" | cut -c1-300
  return 1
}

# in_place COMMAND..: runs a command in the directory for tests.
in_place() {
  cd "$place" && "$@"
}

# run_script SCRIPT WORD..: runs a script like those that read this file, and adds its counts.
run_script() {
  local status=0 pass fail
  "$@" | tee "$room/counts" || status=$?
  read -r pass fail < <(sed -nE 's/^[a-z0-9_ -]+: ([0-9]+) tests, ([0-9]+) failed$/\1 \2/p' "$room/counts" | tail -n 1)
  seen=$((seen + ${pass:-1}))
  failed=$((failed + ${fail:-0}))
  if [ "$status" -ne 0 ] && [ "${fail:-0}" -eq 0 ]; then failed=$((failed + 1)); fi
}

# test_in_node NAME WORD..: runs tests of node with these arguments, and adds their counts. If node ends badly without
# naming a failed test, since it crashes, cancels tests or takes too long, or if no test passes, a further test of this
# name has failed.
test_in_node() {
  local name=$1 status=0 pass fail
  shift
  limited node --test --test-reporter=tap "$@" >"$room/told" 2>&1 || status=$?
  sed -n 's/.*# SKIP */left out: /p' "$room/told" | sort -u
  pass=$(sed -n 's/^# pass //p' "$room/told")
  fail=$(sed -n 's/^# fail //p' "$room/told")
  seen=$((seen + ${pass:-0} + ${fail:-0}))
  failed=$((failed + ${fail:-0}))
  grep -A 25 '^ *not ok' "$room/told" | cut -c1-300 | head -n 100
  if [ "${fail:-0}" -eq 0 ] && { [ "${pass:-0}" -eq 0 ] || [ "$status" -ne 0 ]; }; then
    seen=$((seen + 1))
    failed=$((failed + 1))
    echo "failed: $name: status $status, ${pass:-no count} passed"
    tail -n 30 "$room/told" | cut -c1-300
  fi
}

# has TOOL..: whether all of these tools are installed; names the first that is not, once.
has() {
  local tool
  for tool in "$@"; do
    if command -v "$tool" >/dev/null; then continue; fi
    [[ " $missing " == *" $tool "* ]] || leave_out "what needs $tool"
    missing="$missing $tool"
    return 1
  done
}

# has_module NAME [PYTHON]: whether a package of Python is installed; names one that is not.
has_module() {
  "${2-python3}" -c "import $1" 2>/dev/null && return
  leave_out "what needs the Python package $1"
  return 1
}

# hide_kit: from here on, no command of the kit is in PATH.
hide_kit() {
  local name
  mkdir "$room/none"
  for name in rt rattle; do
    printf '#!/bin/sh\necho "%s was called" >&2\nexit 127\n' "$name" >"$room/none/$name"
    chmod +x "$room/none/$name"
  done
  export PATH=$room/none:$PATH
}

# rust_project FOLDER CRATE: makes a project that runs the synopsis with the crate in a directory.
rust_project() {
  mkdir -p "$1/src" && cp "$root/bindings/rust/examples/synopsis.rs" "$1/src/main.rs" \
    && printf '[package]\nname = "user"\nversion = "0.1.0"\nedition = "2021"\n[dependencies]\n%s\n' \
      "vt100 = { path = \"$2\", default-features = false, features = [\"std\"] }" >"$1/Cargo.toml"
}

# close NAME: prints the counts of a script. Its status is 1 if a test failed, or if none was run.
close() {
  echo "$1: $seen tests, $failed failed"
  [ "$failed" -eq 0 ] && [ "$seen" -gt 0 ]
}

# ---- the library for C, which the script installed under the directory `installed`

# The compiler, what links a program to the shared object, and the command that runs a program.
cc=(cc)
linked=()
run=(env)
flags=(-O2 -Wall -Wextra -pedantic -Werror)

# compile NAME SOURCE..: builds a program linked to the shared object.
compile() {
  "${cc[@]}" -std=c11 "${flags[@]}" "${@:2}" "${linked[@]}" -pthread -o "$room/$1"
}

# compile_alone NAME SOURCE..: builds a program that contains the archive.
compile_alone() {
  local further
  read -ra further <<<"${LIBS-}"
  "${cc[@]}" -std=c11 "${flags[@]}" "-I$installed/include" "${@:2}" "$installed/lib/libvt100.a" -pthread \
    "${further[@]}" -o "$room/$1"
}

# same FILE COMMAND..: whether a command, given standard input, writes the contents of the file.
same() {
  "${@:2}" | cmp - "$1"
}

# example NAME COMMAND..: whether a command, given the arguments and the input of a crate, writes the crate's
# expected output.
example() {
  local crate=$root/crates/$1 words=()
  [ ! -e "$crate/args" ] || mapfile -t words <"$crate/args"
  same "$crate/stdout" "${@:2}" "${words[@]}" <"$crate/stdin"
}

# has_events: whether the example prints each kind of event for a short input.
has_events() {
  {
    printf 'one\a\033g\033[8;3;5t\033]0;both\a\033]1;icon\a\033]2;tit\303\251\a'
    printf '\033]52;c;aGk=\a\033]52;p;?\a\302\205\005\033#8\033[1;2:3!z\033]777;a;b\a'
    printf '\r\ntwo\r\nthree\r\n0123456789ab\r\n\033[?1049h\033[Hx\r\n\r\n'
  } | "${run[@]}" "$room/example-events" 2 10 | diff - bindings/c/tests/example_events.expected
}

# in_c [PREFIX]: tests the library from C. PREFIX begins the names of the tests.
in_c() {
  local on=${1-} tests=bindings/c/tests name
  for name in show text mirror events; do
    try "${on}example $name" compile "example-$name" "bindings/c/examples/$name.c"
  done
  try "${on}example show with the archive" compile_alone show-alone bindings/c/examples/show.c
  for name in misuse threads cases; do try "$on$name compiles" compile "$name" $tests/{$name,lines}.c; done
  for name in refused events screens charsets; do
    try "$on$name compiles" compile_alone "$name" $tests/{$name,lines,heap_refusing}.c
  done
  try "${on}show writes what vtshow writes" example vtshow "${run[@]}" "$room/example-show"
  try "${on}show by itself" example vtshow "${run[@]}" "$room/show-alone"
  try "${on}text writes the text" same <(echo 'this text is RED') "${run[@]}" "$room/example-text"
  try "${on}mirror writes what vtmirror writes" example vtmirror "${run[@]}" "$room/example-mirror"
  try "${on}events writes all events" has_events
  for name in misuse threads refused events screens charsets; do try "$on$name" "${run[@]}" "$room/$name"; done
  try "${on}recorded cases" "${run[@]}" "$room/cases" crates/test_cases/data/{hand,random,scripts}.cases
}
