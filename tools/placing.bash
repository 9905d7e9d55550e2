# What tools/install and tools/uninstall share: files are put below a folder, or taken from there, all of them or none.
#
# A call keeps what it needs in a folder of its own, PREFIX/.tso-installing:
#
#   new/      the files that will be put
#   before/   the files that will be overwritten or removed, as they are
#   plan      what the call changes. While it is there, all of that is taken back
#   done      the plan, once all of it has come to pass
#   made      how many folders were made for PREFIX to be there, itself among them
#
# Each file comes into a folder .tso-new beside its place, and is renamed. The file's system renames `plan` to `done` at one moment: a call
# that fails before it, or ends by a signal, takes everything back. After a call that was killed, the next one does so, or does the rest.
#
# PREFIX/share/tso/installed has the names of all that is installed. PREFIX/share/tso/digests has what they were when they were put there:
# a file's sum, or `link:TARGET`; `folder` for each folder that was made; and `made` with the number above. A file with another sum is
# somebody's own, and is never overwritten or removed.
#
# Every caller sets `prefix` by `name_folder`. room.bash has what a call does to be the only one there, and to mend what an earlier one left.
. "${BASH_SOURCE[0]%/*}/room.bash"
umask 022
export LC_ALL=C
# `&` in a folder's name is no sign.
shopt -u patsub_replacement 2> /dev/null
readonly NO_ANSWER=70 BUSY=75
readonly LIST=share/tso/installed DIGESTS=share/tso/digests BESIDE=.tso-new ROOM=.tso-installing
readonly ONCE_MORE='call --install or --uninstall once more'

# What stands at names that were looked at, by the name; and what the lists of an earlier call say of them.
declare -A now earlier
# The changes of a plan, each `KIND WHAT NAME`: `new` and `over` put the file WHAT, where there was none, or one of ours; `gone` removes
# one of ours; `folder` is made; `empty` is removed if it is empty at the end; `made` has a number for its name.
plan=()

say() { printf 'tso: %s\n' "$*" >&2; }

# Sets `prefix`, by its whole name, and `room`.
name_folder() {
  prefix=$(readlink -m -- "$1/") && [ -n "$prefix" ] || exit "$NO_ANSWER"
  room=${prefix%/}/$ROOM
}

# Looks what stands at these names below the folder, into `now`: a file's sum, link:TARGET, none, or `other`.
look_below() {
  local folder=$1 name line files=() links=() targets
  shift
  now=()
  for name in "$@"; do
    now[$name]=none
    if [ -L "$folder/$name" ]; then
      links+=("$name")
    elif [ -f "$folder/$name" ]; then
      files+=("$name")
    fi
    [ ! -e "$folder/$name" ] || now[$name]=other
  done
  if [ ${#files[@]} -gt 0 ]; then
    while read -r line name; do now[$name]=$line; done < <(cd -- "$folder" && sha256sum -- "${files[@]}")
  fi
  if [ ${#links[@]} -gt 0 ]; then
    mapfile -t targets < <(cd -- "$folder" && readlink -- "${links[@]}")
    for name in "${!links[@]}"; do now[${links[name]}]=link:${targets[name]-}; done
  fi
}

# ---- the plan

# The names of the plan that are of these kinds, in `names`, in its order.
names_of() {
  local line kind
  names=()
  for line in "${plan[@]}"; do
    for kind in "$@"; do
      [ "${line%% *}" != "$kind" ] || names+=("${line#* * }")
    done
  done
}

# The folders, below the prefix, of these names, each once, in `folders`.
folders_of() {
  local name
  local -A seen=()
  folders=()
  for name in "$@"; do
    name=${name%/*}
    [ -z "${seen[$name]-}" ] || continue
    seen[$name]=1
    folders+=("$name")
  done
}

# Those of these names that are in the folder, without it, in `inside`.
inside_of() {
  local folder=$1 name
  shift
  inside=()
  for name in "$@"; do
    [ "${name%/*}" != "$folder" ] || inside+=("${name##*/}")
  done
}

# Does all that is planned. Where something fails it says what, in `failed`, and stops there.
carry_out() {
  local names folders folder inside
  names_of over gone
  failed="$room couldn't be written"
  mkdir -p -- "$room/before" || return
  if [ ${#names[@]} -gt 0 ]; then
    # Links of the files cost nothing. Where the file system has none, copies do.
    (cd -- "$prefix" && { cp -al --parents -t "$room/before" -- "${names[@]}" 2> /dev/null \
      || cp -af --parents -t "$room/before" -- "${names[@]}"; }) || return
  fi
  printf '%s\n' "${plan[@]}" > "$room/plan.new" && mv -fT -- "$room/plan.new" "$room/plan" || return
  failed="a folder in $prefix couldn't be made"
  names_of folder
  [ ${#names[@]} -eq 0 ] || mkdir -- "${names[@]/#/$prefix/}" || return
  names_of new over
  folders_of "${names[@]}"
  for folder in "${folders[@]}"; do
    failed="$prefix/$folder couldn't be written"
    inside_of "$folder" "${names[@]}"
    folder=$prefix/$folder
    mkdir -- "$folder/$BESIDE" && mv -t "$folder/$BESIDE" -- "${inside[@]/#/$room/new/${folder#"$prefix/"}/}" || return
  done
  for folder in "${folders[@]}"; do
    failed="$prefix/$folder couldn't be written"
    inside_of "$folder" "${names[@]}"
    folder=$prefix/$folder
    mv -f -t "$folder" -- "${inside[@]/#/$folder/$BESIDE/}" && rmdir -- "$folder/$BESIDE" || return
  done
  failed="a file in $prefix couldn't be removed"
  names_of gone
  [ ${#names[@]} -eq 0 ] || rm -f -- "${names[@]/#/$prefix/}" || return
  failed="$room couldn't be written"
  mv -fT -- "$room/plan" "$room/done"
}

# Takes back what a plan did, as far as it came. Names in `strange` what isn't as the plan left it, and what can't be put back.
take_back() {
  local names folders folder inside name line
  local -A planned=() old=()
  strange=()
  for line in "${plan[@]}"; do
    name=${line#* }
    planned[${name#* }]=${name%% *}
  done
  names_of new over
  folders_of "${names[@]}"
  for folder in "${folders[@]}"; do
    rm -rf -- "$prefix/$folder/$BESIDE" || strange+=("$prefix/$folder/$BESIDE")
  done
  remove_put
  names_of over gone
  look_below "$room/before" "${names[@]}"
  for name in "${names[@]}"; do old[$name]=${now[$name]}; done
  look_below "$prefix" "${names[@]}"
  for name in "${names[@]}"; do
    case ${now[$name]} in
      none | "${planned[$name]}") [ "${old[$name]}" = none ] || mv -fT -- "$room/before/$name" "$prefix/$name" || strange+=("$prefix/$name") ;;
      "${old[$name]}") ;;
      *) [ "${old[$name]}" = none ] || strange+=("$prefix/$name") ;;
    esac
  done
  names_of folder
  remove_empty "${names[@]}"
  [ ${#strange[@]} -eq 0 ] && rm -f -- "$room/plan"
}

# Removes what a plan put where nothing was, if it is what was put.
remove_put() {
  local ours=()
  names_of new
  look_below "$prefix" "${names[@]}"
  for name in "${names[@]}"; do
    case ${now[$name]} in
      "${planned[$name]}") ours+=("$prefix/$name") ;;
      none) ;;
      *) strange+=("$prefix/$name") ;;
    esac
  done
  [ ${#ours[@]} -eq 0 ] || rm -f -- "${ours[@]}" || strange+=("${ours[@]}")
}

# Removes those of these folders below the prefix that are empty, the last one first.
remove_empty() {
  local at folder
  for ((at = $#; at > 0; at--)); do
    folder=$prefix/${!at}
    [ ! -d "$folder" ] || [ -L "$folder" ] || ! is_empty "$folder" || rmdir -- "$folder" || strange+=("$folder")
  done
}

# Whether nothing is in the folder but what is named.
is_empty() {
  local entries
  shopt -s dotglob nullglob
  entries=("$1"/*)
  shopt -u dotglob nullglob
  [ "${entries[*]}" = "${2-}" ]
}

# ---- what is installed

# Whether all names of a list stay below the prefix: one that leads out of it is none that was written here.
is_list() { ! grep -qE '^/|(^|/)\.\.(/|$)|^$|\\' "$1"; }

# Reads what is installed: the names, in `installed`; what they were, in `earlier`; the folders that were made, in `made_folders`; and for
# how many the prefix itself was made, in `made`. A list without digests is one of an earlier version: its names are believed, and the prefix
# is taken for one that it made.
read_lists() {
  local what name
  installed=() made_folders=() made=0
  earlier=()
  [ -f "$prefix/$LIST" ] || return 0
  if ! is_list "$prefix/$LIST" || ! grep -qxF "$LIST" "$prefix/$LIST"; then
    give_up "$prefix/$LIST isn't a list that was written by --install"
  fi
  mapfile -t installed < "$prefix/$LIST"
  if [ ! -f "$prefix/$DIGESTS" ]; then
    folders_above "${installed[@]}"
    made_folders=("${above[@]}") made=1
    for name in "${installed[@]}"; do earlier[$name]=any; done
    return
  fi
  while read -r what name; do
    case $what in
      folder) made_folders+=("$name") ;;
      made) made=$name ;;
      *) earlier[$name]=$what ;;
    esac
  done < "$prefix/$DIGESTS"
  earlier[$LIST]=any earlier[$DIGESTS]=any
}

# All folders in which these names stand, each after the one it stands in, in `above`.
folders_above() {
  local name
  local -A seen=()
  for name in "$@"; do
    while [[ $name == */* ]]; do
      name=${name%/*}
      seen[$name]=1
    done
  done
  above=()
  [ ${#seen[@]} -eq 0 ] || mapfile -t above < <(printf '%s\n' "${!seen[@]}" | sort)
}

# Whether what stands at the name, as `now` has it, is what --install put there.
is_ours() { [ -n "${earlier[$1]-}" ] && [ "${now[$1]}" != other ] && [[ ${earlier[$1]} == any || ${earlier[$1]} == "${now[$1]}" ]]; }

# Ends the call where files are in the way that aren't ours.
refuse_foreign() {
  local name
  [ $# -gt 0 ] || return 0
  for name in "$@"; do
    if [ -d "$name" ] && [ ! -L "$name" ]; then
      say "$name is a folder"
    else
      say "$name isn't a file that --install wrote, or was changed since"
    fi
  done
  give_up "move away what is named, or name another folder"
}
