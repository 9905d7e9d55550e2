#!/usr/bin/env bash
# Makes a small repository with a release of PROGRAM, and shows in it what ./tso, tests/release.sh and the packages do: a program
# that was changed or put there is noticed, and a changed source is said. Then, which release the page's module is held against.
#
#   tests/release_refusals.sh PROGRAM
#
# PROGRAM is of the sources that stand. The repository has the files of this checkout but for most crates and rows. The last line is 'N
# passed, M failed'.
set -u
export LC_ALL=C
top=$(cd "$(dirname "$0")/.." && pwd)
case ${1:---help} in -h | --help) exec sed -n '2,/^set /{/^set /d;s/^# \{0,1\}//;p}' "$0" ;; esac
program=$(readlink -f "$1")
room=$(mktemp -d)
trap 'rm -rf "$room"' EXIT
trap 'exit 130' INT
. "$top/tests/checks/judging.bash"
sb=$top/examples/store-buffering.litmus
# The toolchain is asked for its version once, and what is made here gets that answer.
if command -v rt > /dev/null; then
  mkdir "$room/toolchain here"
  rt version > "$room/version"
  printf '#!/bin/sh\n[ "$*" != version ] || exec cat "%s"\nexec "%s" "$@"\n' "$room/version" "$(command -v rt)" > "$room/toolchain here/rt"
  chmod +x "$room/toolchain here/rt"
  PATH="$room/toolchain here:$PATH"
fi

# Whether the command fails, and says this.
refuses() {
  local words=$1
  shift
  ! "$@" > "$room/said" 2>&1 < /dev/null && grep -q "$words" "$room/said"
}
accepts() { "$@" > "$room/said" 2>&1 < /dev/null; }
git_in() { git -C "$room/clone" -c user.name=test -c user.email=test@localhost -c commit.gpgsign=false "$@"; }
commit() { git_in add -A && git_in commit -qm "$1"; }

# The crates and the files of rows that the repository has: some on which the program stands, and the page's; what has a word that one of the
# programs here says otherwise.
crates=(tso_terms witnesses scheduler command_line tso page_exports)
rows=(outcomes sweep)

# Those of its files that are as they are in this checkout, where that has a history or not, each ended by a zero byte.
files() {
  find . \( -name out -o -path ./release -o -path ./.git -o -path ./crates -o -path ./crates.txt -o -path ./tests/data \) -prune -o -type f -print0
  find "${crates[@]/#/./crates/}" -name out -prune -o -type f -print0
  printf './tests/data/rows/%s.rows\0' "${rows[@]}"
}

# A checkout whose last commit is the release of PROGRAM.
make_checkout() {
  mkdir -p "$room/clone"
  (cd "$top" && files | tar -cf - --null -T -) | tar -x -C "$room/clone"
  grep -E "^($(IFS='|' && echo "${crates[*]}"))[ :]" "$top/crates.txt" > "$room/clone/crates.txt"
  git_in init -q
  # Nothing is packed for long here.
  git_in config core.compression 0 && git_in config pack.window 0
  commit "the sources" && mkdir -p "$room/built/crates"
  cp -r "$room/clone/." "$room/built/"
  install -D -m 755 "$program" "$room/built/crates/tso/out/tso"
  "$room/clone/tools/release" --from "$room/built" > "$room/said" 2>&1
  judge "a release is made" $?
  gate=(tests/release.sh "$program")
  cd "$room/clone" || exit 1
  accepts "${gate[@]}"
  judge "a release that isn't committed yet, of these sources" $?
  commit "the release"
  accepts "${gate[@]}"
  judge "a committed release" $?
}

# Back to the commit of this name, with nothing else.
back_to() { git_in reset -q --hard "$1" && git_in clean -qfdx; }

# Makes the sums fit what stands in release/.
make_sums() { (sed 's/^[0-9a-f]*  //' release/SHA256SUMS | xargs sha256sum) > "$room/sums" && cp "$room/sums" release/SHA256SUMS; }

# Makes the lists of the release fit what stands.
make_lists() { tools/digests sources > release/SOURCES && tools/digests proofs > release/PROOFS && make_sums; }

# A program that isn't proved, with its sums made to fit.
put_another() { printf '\0' >> release/tso && make_sums; }

# A program that answers wrongly, with its sums made to fit.
put_wrong() { sed -i 's/Sometimes/Neverever/' release/tso && make_sums; }

# A toolchain that isn't here, with the sums made to fit.
name_another_toolchain() { echo "another toolchain" > release/TOOLCHAIN && make_sums; }

change_one_byte() { printf 'X' | dd of=release/tso bs=1 seek=5000 conv=notrunc status=none; }

change_a_source() { echo "// Another line." >> crates/witnesses/src/lib.rt; }

change_a_proof() { echo "-- Another line." >> "$(git_in ls-files 'crates/witnesses/proofs' | head -n 1)"; }

judge_programs() {
  local release
  release=$(git_in rev-parse HEAD)
  change_one_byte
  refuses "isn't what its SHA256SUMS says" "${gate[@]}"
  judge "one byte changed, old sources: the gate" $?
  refuses "isn't what its SHA256SUMS says" ./tso tables
  judge "one byte changed: ./tso" $?
  commit "one byte"
  refuses "isn't what its SHA256SUMS says" "${gate[@]}"
  judge "one byte changed, committed: the gate" $?
  back_to "$release"

  put_another
  refuses "isn't the one built from them" "${gate[@]}"
  judge "another program, old sources: the gate" $?
  back_to "$release"

  change_a_source
  commit "a source"
  accepts "${gate[@]}" && grep -q "the sources are newer" "$room/said"
  judge "newer sources: the gate says so" $?
  change_one_byte
  refuses "isn't what its SHA256SUMS says" "${gate[@]}"
  judge "one byte changed, newer sources: the gate" $?
  back_to HEAD
  put_another
  refuses "isn't committed as it stands" "${gate[@]}"
  judge "another program, newer sources: the gate" $?
  commit "another program"
  refuses "had other sources than SOURCES names" "${gate[@]}"
  judge "another program, newer sources, committed: the gate" $?
  back_to "$release"
}

# What the gate says of lists that aren't those of what stands, or of the commit.
judge_lists() {
  local release
  release=$(git_in rev-parse HEAD)
  sed -i '$d' release/PROOFS && make_sums
  refuses "isn't of what stands, by its PROOFS" "${gate[@]}"
  judge "a list without a proof: the gate" $?
  commit "a list without a proof"
  refuses "had other definitions and proofs than PROOFS names" "${gate[@]}"
  judge "a list without a proof, committed: the gate" $?
  back_to "$release"

  change_a_proof
  commit "a proof"
  accepts "${gate[@]}" && grep -q "the definitions and proofs are newer" "$room/said" && ! grep -q "sources are newer" "$room/said"
  judge "newer proofs: the gate says so" $?
  back_to "$release"

  if ! command -v rt > /dev/null; then
    echo "not tried: another toolchain, which needs rt"
    return
  fi
  name_another_toolchain
  refuses "isn't of what stands, by its TOOLCHAIN" "${gate[@]}"
  judge "another toolchain: the gate" $?
  commit "another toolchain"
  accepts "${gate[@]}" && grep -q "the toolchain here is another" "$room/said"
  judge "another toolchain, committed: the gate says so" $?
  put_another
  commit "another program of another toolchain"
  accepts "${gate[@]}" && grep -q "its answers are held" "$room/said"
  judge "another program of another toolchain: the gate holds its answers" $?
  put_wrong
  commit "a wrong program of another toolchain"
  refuses "doesn't answer the rows" "${gate[@]}"
  judge "a wrong program of another toolchain: the gate" $?
  back_to "$release"
}

# What the gate can't refuse, and what it says where the history is too short to see.
judge_limits() {
  local release
  release=$(git_in rev-parse HEAD)
  change_a_source
  put_wrong
  make_lists
  commit "a wrong program with lists of its own"
  refuses "isn't the one built from them" "${gate[@]}"
  judge "a wrong program with lists of its own, at its commit: the gate" $?
  change_a_source
  commit "newer sources"
  accepts "${gate[@]}" && grep -q "the sources are newer" "$room/said" && tests/release.sh --help | grep -q "^It can't refuse a wrong program"
  judge "a wrong program with lists of its own, newer sources: what the gate can't refuse, and says" $?
  git clone -q --depth 1 "file://$room/clone" "$room/short clone"
  accepts "$room/short clone/tests/release.sh" "$program" && grep -q "the history here is too short" "$room/said"
  judge "a history that is too short: the gate says so" $?
  rm -rf "$room/short clone/.git"
  accepts "$room/short clone/tests/release.sh" "$program" && grep -q "there is no history here" "$room/said"
  judge "no history: the gate says so" $?
  rm -rf "$room/short clone"
  back_to "$release"
}

# Says which program tests/page.py holds the module that ships against, or what is at fault in it.
held() {
  python3 -B - <<< '
import sys, tempfile
sys.path.insert(0, "tests")
from checks.page import shipped_module
with tempfile.TemporaryDirectory() as room:
    sources = shipped_module.told(shipped_module.bytes_in(shipped_module.SCRIPT)).sources
    names = {room: "the release of its commit", shipped_module.TOP: "the release that stands"}
    print("the program" if sources == shipped_module.digest_of(shipped_module.TOP)
        else names[shipped_module.tree_of_release(sources, room)])'
}
holds_against() { accepts held && [ "$(cat "$room/said")" = "$1" ]; }

# Makes the module name the sources that stand as its own.
name_these_sources() {
  local digest
  digest=$({ tools/digests sources && tools/digests proofs && tools/digests page; } | sha256sum)
  sed -i "s/^  sources: '.*'/  sources: '${digest%% *}'/" view/module.js
}

judge_module() {
  local release
  release=$(git_in rev-parse HEAD)
  name_these_sources
  commit "a module"
  holds_against "the program"
  judge "a module of the sources that stand" $?
  change_a_source
  commit "newer sources"
  holds_against "the release of its commit"
  judge "a module of older sources" $?
  git clone -q --depth 1 "file://$room/clone" "$room/short clone"
  (cd "$room/short clone" && holds_against "the release that stands")
  judge "a module of older sources, and a history that is too short" $?
  rm -rf "$room/short clone/release"
  (cd "$room/short clone" && refuses "Unseen: the history here is too short" held)
  judge "a module of older sources, and no release to be seen" $?
  rm -rf "$room/short clone"

  sed -i "s/^  tools: '/&other tools, /" view/module.js
  holds_against "the release of its commit"
  judge "another module, older sources: held to the same release" $?
  commit "another module"
  refuses "Fault: the commit .* had other sources than it names" held
  judge "another module, older sources, committed" $?
  name_these_sources
  commit "another module with a digest of its own"
  change_a_source
  commit "newer sources"
  refuses "Fault: the commit .* had no release of its sources" held
  judge "another module with a digest of its own, and no release of its sources" $?
  echo "alert();" >> view/module.js
  refuses "Fault: it isn't in the form" held
  judge "a module's script that does more" $?
  back_to "$release"
}

judge_tso() {
  local release status word
  release=$(git_in rev-parse HEAD)
  # No toolchain on the path: only the programs that ./tso itself needs.
  mkdir "$room/path"
  for word in bash env readlink uname getconf sha256sum cat cp flock mktemp mkdir mv rm install ln find sort sed rmdir grep; do
    ln -s "$(command -v "$word")" "$room/path/$word"
  done
  bare=(env "PATH=$room/path")
  "${bare[@]}" ./tso run < "$sb" > "$room/answer" 2> "$room/said" && [ ! -s "$room/said" ] \
    && "$program" run < "$sb" | cmp -s - "$room/answer"
  judge "the release answers at once, silently, without the toolchain" $?
  ln -s "$room/clone/tso" "$room/linked"
  (cd / && "${bare[@]}" "$room/linked" run < "$sb" 2>&1) | cmp -s - "$room/answer"
  judge "through a symbolic link" $?

  "${bare[@]}" ./tso run < "$sb" > /dev/null 2>&1
  judge "status 0" $(($? != 0))
  echo "X86" | "${bare[@]}" ./tso run > /dev/null 2>&1
  judge "status 1" $(($? != 1))
  "${bare[@]}" ./tso sit > /dev/null 2>&1
  judge "status 2" $(($? != 2))
  sed '/^====/q' "$sb" | "${bare[@]}" ./tso run > /dev/null 2>&1
  judge "status 3" $(($? != 3))
  { sed '/^====/q' "$sb" && printf 'Order\nEndorder 0\n'; } | "${bare[@]}" ./tso check > /dev/null 2>&1
  judge "status 4" $(($? != 4))
  "${bare[@]}" ./tso run < "$sb" > /dev/full 2> /dev/null
  judge "status 5" $(($? != 5))
  refuses "takes no further word" ./tso --prove now
  judge "--prove with a further word" $?
  "${bare[@]}" ./tso --prove > "$room/said" 2>&1
  judge "--prove without the toolchain: status 70" $(($? != 70))
  for word in "uname:echo Linux aarch64" "uname:echo Darwin x86_64" "getconf:echo glibc 2.33" "getconf:exit 1"; do
    mkdir "$room/fake"
    printf '#!/bin/sh\n%s\n' "${word#*:}" > "$room/fake/${word%%:*}"
    chmod +x "$room/fake/${word%%:*}"
    PATH=$room/fake:$PATH ./tso tables > "$room/said" 2>&1
    status=$?
    grep -q "needs x86-64 Linux" "$room/said" && [ "$status" -eq 70 ]
    judge "another machine: $word" $?
    rm -r "$room/fake"
  done

  change_a_source
  "${bare[@]}" ./tso run < "$sb" > "$room/second" 2> "$room/said" && [ "$(wc -l < "$room/said")" -eq 1 ] \
    && grep -q "the sources here are newer" "$room/said" && cmp -s "$room/answer" "$room/second"
  judge "a changed source: ./tso says so in a line" $?
  git_in checkout -q crates

  # A program that was proved here goes before the release, while its stamp is of what stands.
  mkdir -p crates/tso/out
  printf '#!/bin/sh\necho proved here\n' > crates/tso/out/tso
  chmod +x crates/tso/out/tso
  tools/digests sources > "$room/sources"
  tools/stamp "$room/sources" && [ "$(./tso run < "$sb")" = "proved here" ]
  judge "the program that was proved here goes first" $?
  change_a_source
  "${bare[@]}" ./tso run < "$sb" 2> /dev/null | cmp -s - "$room/answer"
  judge "but not for other sources" $?
  ! tools/stamp "$room/sources" && [ ! -e crates/tso/out/stamp ]
  judge "no stamp where the sources changed since" $?
  git_in checkout -q crates
  tools/stamp "$room/sources"
  echo "echo changed" >> crates/tso/out/tso
  "${bare[@]}" ./tso run < "$sb" 2> /dev/null | cmp -s - "$room/answer"
  judge "nor if it was changed" $?
  back_to "$release"
}

# Without a release, ./tso answers by a program that was proved here, or not at all.
judge_no_release() {
  local release
  release=$(git_in rev-parse HEAD)
  rm -r release
  "${bare[@]}" ./tso run < "$sb" > "$room/second" 2> "$room/said"
  [ $? -eq 70 ] && [ ! -s "$room/second" ] && grep -q "nor a release; ./tso --prove" "$room/said"
  judge "no release and no proved program: status 70" $?
  back_to "$release"
}

# What ./tso --prove does with a toolchain that stands for the real one: it "proves" at once, or not before Ctrl-C.
judge_prove() {
  local release status
  release=$(git_in rev-parse HEAD)
  mkdir "$room/toolchain"
  printf '#!/bin/sh\nmkdir -p out && cp "%s" out/tso\n' "$program" > "$room/toolchain/rt"
  chmod +x "$room/toolchain/rt"
  PATH=$room/toolchain:$PATH accepts ./tso --prove && cmp -s crates/tso/out/tso "$program" \
    && sha256sum --status -c crates/tso/out/stamp
  judge "--prove leaves the program and its stamp" $?
  printf '#!/bin/sh\necho "// Another line." >> ../witnesses/src/lib.rt\n' > "$room/toolchain/rt"
  PATH=$room/toolchain:$PATH refuses "the sources changed while they were proved" ./tso --prove && [ ! -e crates/tso/out/stamp ]
  judge "--prove while a source is written" $?
  git_in checkout -q crates
  printf '#!/bin/sh\necho the reason >&2\nexit 1\n' > "$room/toolchain/rt"
  PATH=$room/toolchain:$PATH refuses "couldn't be built" ./tso --prove && grep -q "the reason" "$room/said" && [ ! -e crates/tso/out/stamp ]
  judge "--prove that fails" $?
  printf '#!/bin/sh\necho once >> "%s"\nexec sleep 20\n' "$room/started" > "$room/toolchain/rt"
  PATH=$room/toolchain:$PATH python3 -c '
import os, signal, subprocess, sys, time
done = subprocess.Popen(["./tso", "--prove"], stdin=subprocess.DEVNULL, stderr=subprocess.DEVNULL, start_new_session=True,
                        preexec_fn=lambda: signal.signal(signal.SIGINT, signal.SIG_DFL))
while not os.path.exists(sys.argv[1]): time.sleep(0.05)
os.killpg(done.pid, signal.SIGINT)
sys.exit(done.wait(10) != 130)' "$room/started" && [ "$(cat "$room/started")" = once ] && [ ! -e crates/tso/out/stamp ]
  judge "Ctrl-C ends --prove and starts nothing" $?
  back_to "$release"
}

# Holds what was installed below a folder: the program, the manual page, and bash's completion.
judge_installed() {
  local page=$2/share/man/man1/tso.1
  [ -f "$page" ] || page=$page.gz
  cmp -s "$program" "$2/bin/tso" && "$2/bin/tso" run < "$sb" | cmp -s - "$room/answer"
  judge "$1: the program" $?
  if command -v man > /dev/null; then
    man -l "$page" 2> /dev/null | grep -q "run x86 litmus tests"
  else
    cat "$page" > /dev/null
  fi
  judge "$1: the manual page" $?
  [ "$(bash -c '. "$0"; COMP_WORDS=(tso run --pro); COMP_CWORD=2; _tso; echo "${COMPREPLY[*]}"' \
    "$2/share/bash-completion/completions/tso")" = --protocol ]
  judge "$1: the completion" $?
  [ -f "$2/share/doc/tso/README.md" ] && [ -f "$2/share/doc/tso/examples/${sb##*/}" ] && [ -f "$2/share/doc/tso/view/index.html" ] \
    && [ -z "$(find "$2" -name '*.rt' -o -name '*.antt')" ]
  judge "$1: documents, examples and the page, and no sources" $?
  (cd / && "$2/bin/tso-cycles" PodWR Fre PodWR Fre) 2> "$room/said" | "$2/bin/tso-theory" - 2>> "$room/said" | grep -q "^allowed *SB$"
  judge "$1: the tools" $?
}

judge_packages() {
  local version
  version=$(cat release/VERSION)
  mkdir "$room/a folder" && : > "$room/a folder/other"
  "${bare[@]}" ./tso --install "$room/a folder" > "$room/said" 2>&1
  judge "--install" $?
  judge_installed "--install" "$room/a folder"
  "${bare[@]}" ./tso --uninstall "$room/a folder" > "$room/said" 2>&1 && [ "$(cd "$room/a folder" && find . | sort | tr '\n' ' ')" = ". ./other " ]
  judge "--uninstall takes away this and nothing else" $?
  refuses "nothing is installed" ./tso --uninstall "$room/a folder"
  judge "--uninstall of nothing" $?

  if ! command -v dpkg-deb > /dev/null; then
    echo "not tried: the packages, which need dpkg-deb"
    return
  fi
  tools/release --package > "$room/first" 2> "$room/said"
  judge "the packages are made" $?
  git clone -q "$room/clone" "$room/another clone" && sleep 1
  (umask 077 && "$room/another clone/tools/release" --package) 2> "$room/said" | cmp -s - "$room/first"
  judge "the packages are the same from another folder" $?
  dpkg-deb -x "out/tso_${version}_amd64.deb" "$room/bare"
  judge_installed "the Debian package" "$room/bare/usr"
  mkdir "$room/unpacked" && tar -xzf "out/tso-$version-linux-x86_64.tar.gz" -C "$room/unpacked"
  judge_installed "the archive" "$room/unpacked/tso-$version-linux-x86_64"
}

make_checkout
judge_programs
judge_lists
judge_limits
judge_module
judge_tso
judge_no_release
judge_prove
judge_packages
end
