# What the tests from outside the proof share. A test's script starts with: . "$(dirname "$0")/../common.sh"
# It sets root (the repository), here (the test's folder) and out (where the test builds), and stops at the first failure.
# A script that links an archive takes another archive as its argument, to try the test itself (tests/independent/standin.rs).
set -eu -o pipefail
here=$(cd "$(dirname "$0")" && pwd)
root=$(cd "$here/../../.." && pwd)
out=$root/target/outside/$(basename "$here")
mkdir -p "$out"
cd "$root"

# rust SOURCE OUTPUT WORDS..: compiles plain Rust
rust() {
  local source=$1 output=$2
  shift 2
  rustc -O --edition 2021 -D warnings -o "$output" "$@" "$source"
}

# alone COMMAND..: what tests that run beside each other share is built by one of them at a time
alone() {
  (
    flock 9
    "$@"
  ) 9>"$root/target/outside/lock"
}

independent() { # LIBRARY
  if [ ! -f "$1" ] || [ -n "$(find tests/independent -name '*.rs' -newer "$1")" ]; then
    rust tests/independent/lib.rs "$1" --crate-type rlib --crate-name independent
  fi
}

# program SOURCE OUTPUT WORDS..: a Rust program over the independent implementation, which is built if it has changed
program() {
  local source=$1 output=$2 lib=$root/target/outside/libindependent.rlib
  shift 2
  alone independent "$lib"
  rust "$source" "$output" --extern "independent=$lib" "$@"
}

# archive NAME: proves a crate, makes its archive and prints the archive's path. An archive that is newer than every crate's
# files and folders is taken as it is: the tests of one run share it.
archive() { alone bash tests/built archive "$1"; }

# proved NAME: the path of a proved program, which is proved and linked first if a file has changed since. PROGRAMS=FOLDER takes
# the programs there instead, to try a test itself.
proved() {
  if [ -n "${PROGRAMS:-}" ]; then
    echo "$PROGRAMS/$1"
  else
    alone bash tests/built program "$1"
  fi
}

# words RULE COMMAND..: for each line beside a worked rule, COMMAND.. with the word, the limit and the verdict
words() {
  local rule=$1 word limit expected
  shift
  while read -r word limit expected; do
    case $word in '#'* | '') continue ;; -) word= ;; esac
    "$@" "$word" "$limit" "$expected"
  done <"${rule%.rule}.words"
}
