# shellcheck shell=bash
# library.sh: what the tools share that take what was proved; they read it in with `.`, at the top of the tree.

# needs COMMAND..: ends in words where one of them is not installed.
needs() {
  local name
  for name in "$@"; do
    command -v "$name" >/dev/null || { echo "${0##*/}: '$name' is not installed; README.md says what is needed" >&2; exit 2; }
  done
}

# kit: the toolchain's folder.
kit() { dirname "$(dirname "$(readlink -f "$(command -v rt)")")"; }

# digest FILE|FOLDER..: one number for the names and octets of all files in them, but for what `rt` keeps in a folder out/.
digest() { find "$@" -type d -name out -prune -o -type f -print0 | LC_ALL=C sort -z | xargs -0 sha256sum | sha256sum; }

# proving: one number for all that the proofs read: the toolchain and the crates.
proving() { { rt version && digest crates.txt crates; } | sha256sum; }

# stands_on NAME: what a crate stands on, by crates.txt.
stands_on() { sed -n "s/#.*//; s/^$1\( staticlib\)\?: *//p" crates.txt; }

# note_proved FILE SOURCES: notes in target/proved what `rt ci` built since the file was written, where the sources are still those
# that it read: what says of a library which it is, and each program. What it put back from before is older than the file.
note_proved() {
  local made main
  mkdir -p target
  rm -f target/proved
  [ "$(proving)" = "$2" ] || return 0
  {
    echo "$2"
    for made in crates/*/out/rlib/*.rlib; do
      [ ! "$made" -nt "$1" ] || sha256sum "$made/format"
    done
    for main in crates/*/src/main.rt; do
      made=${main%/src/main.rt}
      made=$made/out/${made##*/}
      [ ! "$made" -nt "$1" ] || sha256sum "$made"
    done
  } >target/proved
}

# is_proved FILE..: whether `rt ci` built these from the sources as they stand, by target/proved.
is_proved() {
  local file
  [ -f target/proved ] && [ "$(head -n 1 target/proved)" = "$(proving)" ] || return
  for file in "$@"; do
    grep -F "  $file" target/proved | sha256sum --status --strict --check 2>/dev/null || return
  done
}

# find_library: sets WAKKEMOSUT_LIB, for this tool and all that it runs, to the folder of libwakkemosut.a. Where it is set, that folder is
# taken as it stands; it must be a whole path, so that it is the same folder to every tool. Else the library is
# proved and written, if need be, and the folder is target/host.
find_library() {
  case ${WAKKEMOSUT_LIB:-} in
    '')
      tools/libwakkemosut || exit
      WAKKEMOSUT_LIB=$PWD/target/host
      ;;
    /*) ;;
    *) echo "${0##*/}: WAKKEMOSUT_LIB is '$WAKKEMOSUT_LIB': name the folder by its whole path" >&2; exit 2 ;;
  esac
  [ -f "$WAKKEMOSUT_LIB/libwakkemosut.a" ] || { echo "${0##*/}: WAKKEMOSUT_LIB: there is no $WAKKEMOSUT_LIB/libwakkemosut.a" >&2; exit 2; }
  export WAKKEMOSUT_LIB CARGO_TARGET_DIR=${CARGO_TARGET_DIR:-$PWD/target/cargo}
}
