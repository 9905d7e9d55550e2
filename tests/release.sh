#!/usr/bin/env bash
# Judges the folder release/ against the program that was proved and built here, and against the history.
#
#   tests/release.sh PROGRAM
#
# - release/ has its six files alone, and is what its SHA256SUMS says; its version is the program's and CHANGELOG.md's.
# - Where SOURCES is what stands, PROGRAM is release/tso, byte for byte. Only where the toolchain here isn't that of TOOLCHAIN the
#   bytes may differ; then release/tso answers the rows.
# - The commit that last touched release/ has the sources that SOURCES names, and the definitions and proofs that PROOFS names. A
#   release that isn't committed is of what stands.
# - Where sources, definitions and proofs, or the toolchain here aren't the release's, a line says so. That alone fails nothing.
#
# It can't refuse a wrong program that is committed with sums, SOURCES and PROOFS of its own, under newer sources: nothing here builds
# older ones. (At its own commit the gate refuses it.) Nor can it refuse, under a TOOLCHAIN that isn't here, a wrong program that
# answers the rows. A build of one's own shows both: docs/PROVED.md has the lines, and none of them is the release's own.
#
# Where there is no release/, or no history to see that far, it says that. The last line is 'N passed, M failed'.
set -u
export LC_ALL=C
top=$(cd "$(dirname "$0")/.." && pwd)
case ${1:---help} in -h | --help) exec sed -n '2,/^set /{/^set /d;s/^# \{0,1\}//;p}' "$0" ;; esac
program=$(readlink -f "$1")
cd "$top" || exit 1

passed=0
failed=0
room=$(mktemp -d)
trap 'rm -rf "$room"' EXIT

pass() { passed=$((passed + 1)); }
fail() {
  failed=$((failed + 1))
  echo "release/: $*"
}

judge_folder() {
  if [ "$(find release -mindepth 1 | sort | tr '\n' ' ')" = \
    "release/PROOFS release/SHA256SUMS release/SOURCES release/TOOLCHAIN release/VERSION release/tso " ] \
    && [ -z "$(find release -type l)" ]; then pass; else fail "it has other files than a release has"; fi
  if [ "$(sed 's/^[0-9a-f]*  //' release/SHA256SUMS | tr '\n' ' ')" = \
    "release/PROOFS release/SOURCES release/TOOLCHAIN release/VERSION release/tso " ] \
    && sha256sum --status --strict -c release/SHA256SUMS; then
    pass
    judge_version
  else
    fail "it isn't what its SHA256SUMS says"
  fi
}

judge_version() {
  local version
  version=$(cat release/VERSION)
  if [ "$(release/tso --version 2>&1)" = "tso $version" ]; then pass; else fail "the program isn't of version $version"; fi
  if grep -q "^## $version (" CHANGELOG.md; then pass; else fail "CHANGELOG.md has no part for version $version"; fi
}

# Whether what stands is what the release has in this file. Else a line says so, and it is noted among the others.
others=
compare() {
  cmp -s "$2" "release/$3" && return
  others="$others $3"
  echo "release/: the $1 than version $(cat release/VERSION)"
}

# The sources, the definitions and proofs, and the toolchain that stand.
compare_all() {
  tools/digests sources > "$room/sources"
  tools/digests proofs > "$room/proofs"
  compare "sources are newer" "$room/sources" SOURCES
  compare "definitions and proofs are newer" "$room/proofs" PROOFS
  if rt version > "$room/toolchain" 2> /dev/null; then
    compare "toolchain here is another" "$room/toolchain" TOOLCHAIN
  else
    echo "release/: rt isn't here, so its toolchain isn't compared"
  fi
}

judge_program() {
  case $others in
    *SOURCES*) return ;;
    *TOOLCHAIN*) if cmp -s "$program" release/tso; then pass; else judge_answers; fi ;;
    *) if cmp "$program" release/tso; then pass; else fail "the sources are its own, but the program isn't the one built from them"; fi ;;
  esac
}

judge_answers() {
  echo "release/: the program here has other bytes, by the other toolchain: its answers are held, to the rows"
  if tests/run_rows.py release/tso > "$room/rows" 2>&1; then
    pass
  else
    fail "the sources are its own, but the program doesn't answer the rows"
    tail -n 5 "$room/rows"
  fi
}

judge_history() {
  local commit
  if ! git rev-parse --git-dir > /dev/null 2>&1; then
    echo "release/: there is no history here to hold it against"
    return
  fi
  commit=$(git log -1 --format=%H -- release)
  if [ -z "$commit" ] || [ -n "$(git status --porcelain --ignored -- release)" ]; then
    if [ -z "$others" ]; then pass; else fail "it isn't committed as it stands, and isn't of what stands, by its$others"; fi
    return
  fi
  if grep -qsx "$commit" "$(git rev-parse --git-path shallow)"; then
    echo "release/: the history here is too short to hold it against the commit that last touched it"
    return
  fi
  mkdir "$room/then"
  git archive "$commit" crates.txt crates | tar -x -C "$room/then"
  judge_then "$commit" sources SOURCES sources
  judge_then "$commit" proofs PROOFS "definitions and proofs"
}

# Whether the commit in the folder `then` has what a list of the release names.
judge_then() {
  if tools/digests "$2" "$room/then" | cmp -s - "release/$3"; then
    pass
  else
    fail "the commit ${1:0:9}, which last touched it, had other $4 than $3 names"
  fi
}

if [ -e release ] || [ -n "$(git ls-files -- release 2> /dev/null)" ]; then
  judge_folder
  compare_all
  judge_program
  judge_history
else
  echo "release/: there is none"
fi
echo "$passed passed, $failed failed"
[ "$failed" -eq 0 ]
