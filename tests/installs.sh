#!/usr/bin/env bash
# Installs PROGRAM as ./tso does, into folders of several kinds, and holds what is there: the program and the tools answer, the documents
# say what holds there and link to what is there, and all of it goes again.
#
#   tests/installs.sh PROGRAM
#
# It works on a small checkout of its own, whose release is PROGRAM. Installing is tried without Python on the path. The last line is
# 'N passed, M failed'.
set -u
export LC_ALL=C
top=$(cd "$(dirname "$0")/.." && pwd)
case ${1:---help} in -h | --help) exec sed -n '2,/^set /{/^set /d;s/^# \{0,1\}//;p}' "$0" ;; esac
program=$(readlink -f "$1")
room=$(mktemp -d)
trap 'chmod -R u+w "$room"; rm -rf "$room"' EXIT
trap 'exit 130' INT
. "$top/tests/checks/judging.bash"
tools=(campaign compare cycles fences graph hardware import plot theory uninstall workload)
any=$(IFS='|' && echo "${tools[*]}")

# A checkout of what is installed, and a path with only the programs that this takes.
make_checkout() {
  local word
  mkdir -p "$room/checkout/release" "$room/path"
  cd "$room/checkout" || exit 1
  (cd "$top" && cp -r tso tools completions docs examples view README.md CHANGELOG.md crates.txt "$room/checkout/")
  cp "$program" release/tso && echo 9.9.9 > release/VERSION && sha256sum crates.txt > release/SOURCES
  : > release/PROOFS && echo "a toolchain" > release/TOOLCHAIN
  sha256sum release/PROOFS release/SOURCES release/TOOLCHAIN release/VERSION release/tso > release/SHA256SUMS
  for word in bash env readlink uname getconf stat sha256sum cat cp flock mkdir mv rm rmdir install ln find sort sed grep; do
    ln -s "$(command -v "$word")" "$room/path/$word"
  done
  bare=(env "PATH=$room/path")
}

# Whether the script's words end with this status, nothing on standard output, and one line on standard error that says these words.
says() {
  local status=$1 words=$2
  shift 2
  "$@" > "$room/shown" 2> "$room/said" < /dev/null
  [ $? -eq "$status" ] && [ ! -s "$room/shown" ] && [ "$(grep -c '^tso: ' "$room/said")" -eq 1 ] && grep -qF -- "$words" "$room/said"
}

# All files and links below a folder.
files_of() { (cd "$1" && find "$PWD" ! -type d | sort); }

judge_where() {
  local prefix="$room/a folder/of programs"
  says 0 "tso: installed in $prefix; its programs are in $prefix/bin, which isn't on PATH: export PATH=\"$prefix/bin:\$PATH\"" \
    "${bare[@]}" ./tso --install "$prefix" && [ "$(wc -l < "$room/said")" -eq 1 ]
  judge "one line says where it is" $?
  says 0 "which is on PATH" env "PATH=/none:$prefix/bin:$room/path" ./tso --install "$prefix"
  judge "and that it is on the path" $?
  "${bare[@]}" ./tso --install --verbose "$prefix" 2> "$room/said" | sort | cmp -s - <(files_of "$prefix")
  judge "--verbose lists each file" $?
  [ -z "$(find "$prefix" ! -type l -perm /022)" ] && [ -z "$(find -L "$prefix" -type l)" ]
  judge "nobody else may write it, and each link leads to a file" $?
  mkdir "$room/a home"
  says 0 "installed in $room/a home/.local" env "HOME=$room/a home" "PATH=$room/path" ./tso --install \
    && [ -x "$room/a home/.local/bin/tso" ]
  judge "without a folder: below the home folder" $?
  says 0 "its programs are in $room/checkout/here/bin" "${bare[@]}" ./tso --install here \
    && "${bare[@]}" ./tso --uninstall here && [ ! -e here ]
  judge "a folder named from here" $?
  [ "$("${bare[@]}" ./tso --program)" = "$PWD/release/tso" ] && [ "$(cd / && "$room/checkout/tso" --program)" = "$PWD/release/tso" ]
  judge "--program prints the path of the program that is run" $?
  says 2 "--program takes no further word" ./tso --program x
  judge "--program with another word" $?
}

judge_refusals() {
  local word
  for word in --install --uninstall; do
    says 2 "$word has an empty folder" ./tso "$word" ""
    judge "$word with an empty folder" $?
    says 2 "HOME isn't set" env -u HOME ./tso "$word"
    judge "$word without a home folder" $?
    says 2 "$word takes one folder" ./tso "$word" "$room/one" "$room/two"
    judge "$word with two folders" $?
    says 2 "$word takes one folder" ./tso "$word" --quiet
    judge "$word with another option" $?
  done
  says 2 "--uninstall takes one folder" ./tso --uninstall --verbose "$room/one"
  judge "--uninstall --verbose" $?
  [ ! -e "$room/one" ]
  judge "what is refused makes no folder" $?
}

# Who may write everything may not here.
bound() {
  if [ "$(id -u)" -eq 0 ]; then setpriv --bounding-set=-dac_override "$@"; else "$@"; fi
}

judge_read_only() {
  mkdir -p "$room/read only" && chmod a-w "$room/read only"
  says 70 "$room/read only can't be written; nothing was changed" bound ./tso --install "$room/read only" && [ -z "$(ls -A "$room/read only")" ]
  judge "a folder that can't be written" $?
  mkdir -p "$room/half/share" && chmod a-w "$room/half/share"
  says 70 "a folder in $room/half couldn't be made; nothing was changed" bound ./tso --install "$room/half" && [ "$(ls "$room/half")" = share ]
  judge "a folder of which a part can't be written: nothing is left there" $?
  : > "$room/file"
  says 70 "$room/file isn't a folder" ./tso --install "$room/file" && [ ! -s "$room/file" ]
  judge "a file in the folder's place" $?
}

# The tools from another folder, by the names that are on the path then.
judge_tools() {
  local tool
  PATH=$1/bin:$PATH
  mkdir "$room/elsewhere" && cd "$room/elsewhere" || exit 1
  for tool in "${tools[@]}"; do
    "tso-$tool" --help > "$room/said" 2>&1 && ! grep -qE "tools/($any)\b|\./tso" "$room/said" \
      && grep -q "tso-$tool" "$room/said"
    judge "tso-$tool --help" $?
  done
  tso-cycles PodWR Fre PodWR Fre > sb.litmus 2> "$room/said" && grep -q '^TSO=allowed' sb.litmus
  judge "tso-cycles makes a test with its verdict" $?
  [ "$(tso-theory sb.litmus 2> "$room/said")" = "allowed   SB" ]
  judge "tso-theory judges it" $?
  tso-campaign outcomes tso --theory --results found sb.litmus > "$room/said" 2>&1 && grep -q "^same" "$room/said"
  judge "tso-campaign asks tso of the path" $?
  printf 'X86_64 SB\n{ }\nP0 | P1 ;\nmovl $1,(x) | movl $1,(y) ;\nmovl (y),%%eax | movl (x),%%eax ;\nexists (0:rax=0 /\\ 1:rax=0)\n' \
    | tso-import - 2> "$room/said" | tso outcomes > one.log && tso outcomes < sb.litmus > two.log \
    && tso-compare one.log two.log > "$room/said"
  judge "tso-import and tso-compare" $?
  [ "$(PYTHONPATH=$1/share/tso/tools python3 -B -c 'import tso; print(tso.find())' 2> "$room/said")" = "$(readlink -f "$1/bin/tso")" ]
  judge "the module finds the program that was installed with it" $?
  if command -v cc > /dev/null && [ "$(nproc)" -ge 2 ]; then
    tso-hardware --runs 1000 sb.litmus > "$room/said" 2>&1 && grep -q "^Observation SB" "$room/said"
    judge "tso-hardware asks the program beside it" $?
  else
    echo "not tried: tso-hardware, which needs a C compiler and two processors"
  fi
  cd "$room/checkout" && [ -z "$(find "$1" -name '__pycache__')" ]
  judge "the tools leave nothing behind" $?
}

# Prints each fault of the installed documents: of a link, of a name that isn't installed, and of a command's answer.
faults_of_documents() {
  python3 -B - "$top/tests" "$program" "$1/share/doc/tso" "$any" << 'END'
import glob, os, re, sys
sys.path.insert(0, sys.argv[1])
import documents
from checks import judging
program, folder = sys.argv[2:4]
# The checkout's names of what is installed, but for the script's own words, and for where hints, and the note on them, name a tool.
CHECKOUT = re.compile(r"""\./tso(?: (?!--prove|--program|--install|--uninstall)|['"]).*|^(?!hint: |These pages ).*\btools/(?:%s)\b""" % sys.argv[4])
paths = sorted(glob.glob(os.path.join(folder, "**", "*.md"), recursive=True))
faults = [] if len(paths) > 10 else ["there are %d documents" % len(paths)]
for path in paths + [os.path.join(folder, "view", name) for name in ("index.html", "settings.js")]:
    text = judging.content(path)
    faults += [os.path.basename(path) + ": " + fault for fault in documents.faults_of_links(path) if path.endswith(".md")]
    faults += ["%s: %s" % (os.path.basename(path), found.group()) for found in map(CHECKOUT.search, text.splitlines()) if found]
rows = [row for found in judging.in_threads(lambda path: documents.rows_of_blocks(program, path), paths) for row in found]
faults += ["%s %s" % (name, "\n".join(told)) for name, told in rows if told]
print("\n".join(faults or ["%s commands" % ("many" if len(rows) > 100 else len(rows))]))
END
}

judge_documents() {
  PATH=$1/bin:$PATH faults_of_documents "$1" > "$room/said" 2>&1 && [ "$(cat "$room/said")" = "many commands" ]
  judge "the documents name and link to what is there, and their commands answer as they say" $?
  cmp -s <(cd "$top/examples" && find . -name '*.litmus' -o -name '*.order' | sort | xargs -d '\n' sha256sum) \
    <(cd "$1/share/doc/tso/examples" && find . -name '*.litmus' -o -name '*.order' | sort | xargs -d '\n' sha256sum)
  judge "the examples are those of the checkout" $?
}

# A release whose sources are older than what stands is installed, and that is said.
judge_older() {
  cp crates.txt "$room/crates" && echo "# Another line." >> crates.txt
  ./tso --install "$room/older" > "$room/said" 2>&1 && [ "$(wc -l < "$room/said")" -eq 2 ] \
    && grep -q "^tso: this is the program of release 9.9.9; the documents here are of newer sources" "$room/said"
  judge "newer sources" $?
  cp "$room/crates" crates.txt
}

# A folder of which a part is a link to elsewhere: the tools find the program beside them without a path, and it is all taken away again.
judge_linked() {
  local part prefix
  for part in share bin; do
    prefix=$room/linked/$part/of/programs
    mkdir -p "$prefix" "$room/linked/$part/there/deep/$part" && ln -s "../../there/deep/$part" "$prefix/$part"
    "${bare[@]}" ./tso --install "$prefix" 2> "$room/said" \
      && [ "$(cd / && PATH=${PATH#"$1/bin:"} "$prefix/bin/tso-campaign" outcomes "$top/examples/gallery/SB.litmus" 2> "$room/said")" = "SB Sometimes 1 3 Ok" ]
    judge "a tool by its whole name, where $part is a link" $?
    (cd / && "$prefix/bin/tso-uninstall" 2> "$room/said") \
      && [ "$(cd "$room/linked/$part" && find . | sort | tr '\n' ' ')" = ". ./of ./of/programs ./of/programs/$part ./there ./there/deep ./there/deep/$part " ]
    judge "tso-uninstall without a folder, where $part is a link" $?
  done
}

# An earlier version wrote no digests, and said nothing of the folder itself: an install over it leaves no empty folder when all is gone.
judge_earlier() {
  local prefix=$room/earlier/programs
  "${bare[@]}" ./tso --install "$prefix" 2> "$room/said" && rm "$prefix/share/tso/digests" && sed -i /digests$/d "$prefix/share/tso/installed" \
    && mkdir -p "$prefix/share/doc/tso/docs/gone" && : > "$prefix/share/doc/tso/docs/gone/A.md" \
    && echo share/doc/tso/docs/gone/A.md >> "$prefix/share/tso/installed" \
    && "${bare[@]}" ./tso --install "$prefix" 2> "$room/said" && [ -z "$(find "$prefix" -type d -empty)" ] \
    && "${bare[@]}" ./tso --uninstall "$prefix" 2> "$room/said" && [ ! -e "$prefix" ]
  judge "an install over a version without digests leaves no empty folder" $?
}

# A second version, which has one file less, over the first; then all of it goes, but what is another's.
judge_removal() {
  local prefix=$1
  : > "$prefix/bin/other"
  rm docs/TRACE.md && "${bare[@]}" ./tso --install "$prefix" 2> "$room/said" && [ ! -e "$prefix/share/doc/tso/docs/TRACE.md" ] \
    && cmp -s <(sed "s|^|$prefix/|" "$prefix/share/tso/installed" | sort) <(files_of "$prefix" | grep -v '/bin/other$') \
    && grep -qF TRACE.md "$prefix/share/doc/tso/README.md" && ! grep -rqE '\]\([^)]*TRACE\.md' "$prefix/share/doc/tso"
  judge "another version leaves nothing of the one before, nor a link to it" $?
  "${bare[@]}" ./tso --uninstall "$prefix" > "$room/said" 2>&1 \
    && [ "$(cd "$prefix" && find . | sort | tr '\n' ' ')" = ". ./bin ./bin/other " ]
  judge "--uninstall takes away all of it, and nothing else" $?
  says 70 "nothing is installed in $prefix" ./tso --uninstall "$prefix"
  judge "--uninstall of nothing" $?
  mkdir -p "$room/wrong/share/tso" && echo ../file > "$room/wrong/share/tso/installed"
  says 70 "isn't a list that was written by --install" ./tso --uninstall "$room/wrong" && [ -e "$room/file" ]
  judge "--uninstall by a list that leads out of its folder" $?
}

make_checkout
judge_where
judge_refusals
judge_read_only
judge_tools "$room/a folder/of programs"
judge_documents "$room/a folder/of programs"
judge_linked "$room/a folder/of programs"
judge_earlier
judge_older
judge_removal "$room/a folder/of programs"
end
