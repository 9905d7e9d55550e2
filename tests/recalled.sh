#!/usr/bin/env bash
# Holds ./tso to what it remembers: a call that finds all files as an earlier one left them runs the same program without summing them, and
# any file that was touched, changed, put in another's place, lost or proved since then is noticed.
#
#   tests/recalled.sh
#
# It works on a small checkout of its own, whose programs are scripts that say their name. Where a C compiler is there, a clock that went
# back is tried too. The last line is 'N passed, M failed'.
set -u
export LC_ALL=C
case ${1-} in -h | --help) exec sed -n '2,/^set /{/^set /d;s/^# \{0,1\}//;p}' "$0" ;; esac
top=$(cd "$(dirname "$0")/.." && pwd)
room=$(mktemp -d)
trap 'chmod -R u+w "$room"; rm -rf "$room"' EXIT
trap 'exit 130' INT
passed=0
failed=0

judge() {
  if [ "$2" = "$3" ]; then
    passed=$((passed + 1))
  else
    failed=$((failed + 1))
    printf '%s\n    wanted: %s\n    got:    %s\n' "$1" "$2" "$3"
  fi
}

# A program that says this word.
program() {
  mkdir -p "$(dirname "$2")" && printf '#!/bin/sh\necho %s\n' "$1" > "$2" && chmod +x "$2"
}

make_checkout() {
  rm -rf "$room/c" && mkdir -p "$room/c/crates/tso/src" "$room/c/release" "$room/c/tools" && cd "$room/c" || exit 1
  cp "$top/tso" tso && cp "$top/tools/digests" tools/digests
  echo "tso:" > crates.txt && echo "fn main" > crates/tso/src/main.rt
  program release release/tso && echo 9.9.9 > release/VERSION
  sha256sum crates.txt crates/tso/src/main.rt > release/SOURCES
  : > release/PROOFS && echo "a toolchain" > release/TOOLCHAIN
  sum_release
}

sum_release() { sha256sum release/PROOFS release/SOURCES release/TOOLCHAIN release/VERSION release/tso > release/SHA256SUMS; }

# A checkout whose last call is remembered: of files that are more than a second old.
make_remembered() {
  make_checkout
  sleep 2.1
  ./tso > /dev/null 2>&1
}

# What a call says, in short: the program's word, with `older` where the sources are said to be newer; or the script's words.
said() {
  ./tso "$@" 2>&1 | sed -e 's/^tso: this is the program of release.*/older/' -e "s/^tso: release.*isn't what.*/spoiled/" \
    -e 's/^tso: there is neither.*/none/' | tr '\n' ' '
}

# Whether the next call sums files: a sha256sum that leaves a trace comes first on the path.
sums() {
  rm -f "$room/summed"
  mkdir -p "$room/bin" && printf '#!/bin/sh\ntouch "%s/summed"\nexec %s "$@"\n' "$room" "$(command -v sha256sum)" > "$room/bin/sha256sum"
  chmod +x "$room/bin/sha256sum"
  PATH=$room/bin:$PATH ./tso > /dev/null 2>&1
  [ -e "$room/summed" ] && echo sums || echo recalls
}

make_checkout
judge "files that are younger than a second aren't remembered" "sums no" "$(sums) $([ -e out/seen ] && echo yes || echo no)"
make_remembered
judge "what is as it was isn't summed again" "recalls release " "$(sums) $(said)"
touch crates.txt
judge "a file that was touched is summed" "sums release " "$(sums) $(said)"

make_remembered
cp -p crates/tso/src/main.rt "$room/old" && printf 'fn niam\n' > "$room/new" && touch -r "$room/old" "$room/new" && cp -p "$room/new" crates/tso/src/main.rt
judge "a source of the same size and time is noticed" "older release " "$(said)"
make_remembered
program another "$room/another" && printf '#!/bin/sh\necho relaese\n' > "$room/another" && chmod +x "$room/another"
touch -r release/tso "$room/another" && mv "$room/another" release/tso
judge "a program that was put in its place is noticed" "spoiled " "$(said)"
make_remembered
rm release/VERSION
judge "a lost file is noticed" "spoiled " "$(said)"
make_remembered
rm -r release
judge "a lost release is noticed" "none " "$(said)"

make_remembered
program proved crates/tso/out/tso
{ cat release/SOURCES && sha256sum crates/tso/out/tso; } > crates/tso/out/stamp
judge "a program that was proved since then is run" "proved " "$(said)"
sleep 2.1
./tso > /dev/null
judge "that is remembered too" "recalls proved " "$(sums) $(said)"
echo "fn main2" > crates/tso/src/main.rt
judge "and a changed source is noticed" "older release " "$(said)"

make_remembered
sed -i "1s/ .*/ another-start/" out/seen
judge "what was remembered before the machine was started again isn't taken" "sums" "$(sums)"
make_checkout
sleep 2.1
mkdir out && echo spoiled > out/seen && chmod 400 out/seen
judge "what is remembered in another form isn't taken" "sums release " "$(sums) $(said)"
make_checkout
: > out
sleep 2.1
judge "where nothing can be remembered the answer is the same" "sums release " "$(sums) $(said)"
make_remembered
mkdir "$room/d" && ln -sf "$room/c/tso" "$room/d/tso"
judge "a link to the script, from another folder" "release" "$(cd / && "$room/d/tso")"
judge "the script by its name alone, on the path" "release" "$(cd / && PATH=$room/c:$PATH && tso)"
judge "words and streams are handed on" "a b" "$(printf '#!/bin/sh\necho "$@"\n' > release/tso; sum_release; ./tso a b)"

if command -v cc > /dev/null; then
  make_checkout
  sleep 2.1
  printf '%s\n' '#define _GNU_SOURCE' '#include <time.h>' '#include <sys/time.h>' \
    'time_t time(time_t *t) { struct timespec s; clock_gettime(CLOCK_REALTIME, &s); if (t) *t = s.tv_sec - 3600; return s.tv_sec - 3600; }' \
    'int gettimeofday(struct timeval *t, void *z) { struct timespec s; clock_gettime(CLOCK_REALTIME, &s); t->tv_sec = s.tv_sec - 3600; t->tv_usec = 0; return 0; }' \
    > "$room/back.c"
  cc -shared -fPIC -w -o "$room/back.so" "$room/back.c" || exit 1
  judge "nothing is remembered under a clock that went back" "release no" \
    "$(LD_PRELOAD=$room/back.so bash ./tso) $([ -e out/seen ] && echo yes || echo no)"
fi

echo "$passed passed, $failed failed"
[ "$failed" -eq 0 ]
