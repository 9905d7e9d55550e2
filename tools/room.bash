# For placing.bash: the folder below which files are put, the room in it, and what an earlier call left there.

# Has this call be the only one in the folder, until all its processes have ended.
lock() {
  local descriptor=$1 folder=$2 status
  if ! eval "exec $descriptor< \"\$folder\""; then
    say "$folder can't be opened; the line before it says why"
    exit "$NO_ANSWER"
  fi
  flock -n -E "$BUSY" "$descriptor"
  status=$?
  if [ "$status" -eq "$BUSY" ]; then
    say "another --install or --uninstall is at work in $folder; call again once it is done"
    exit "$NO_ANSWER"
  elif [ "$status" -ne 0 ]; then
    say "$folder can't be locked, by the line before; so see that no other --install or --uninstall is at work there"
  elif [ ! "$folder" -ef "/proc/$$/fd/$descriptor" ]; then
    say "another --install or --uninstall took $folder away; call again"
    exit "$NO_ANSWER"
  fi
}

# The topmost of the folder and those above it that aren't there, in `missing`; and by what name it is made, in `unborn`.
find_missing() {
  local above=$1
  missing=$above
  while [ -n "$above" ] && [ ! -e "$above" ] && [ ! -L "$above" ]; do
    missing=$above
    above=${above%/*}
  done
  unborn=${missing%/*}/.${missing##*/}$BESIDE
}

# Removes what a call left that was killed while it made the folder, or took it away: a name that nobody else gives.
clear_unborn() {
  local missing unborn
  find_missing "$prefix"
  [ -e "$unborn" ] || return 0
  lock 8 "${missing%/*}/"
  # Another call may have been making it, and have done so.
  [ -e "$unborn" ] || { exec 8<&- && return; }
  rm -rf -- "$unborn/${room#"$missing/"}" && find "$unborn" -depth -type d -empty -delete && [ ! -e "$unborn" ] && exec 8<&- && return
  say "$unborn couldn't be removed; remove it, and call again"
  exit "$NO_ANSWER"
}

# Ends the call where this is there already: a file, or a folder that another call made meanwhile.
refuse_what_is_there() {
  [ -e "$1" ] || return 0
  if [ -d "$1" ]; then
    say "another --install or --uninstall is at work in $1; call again once it is done"
  else
    say "$1 isn't a folder"
  fi
  exit "$NO_ANSWER"
}

# Makes the folder, with the room in it, and those above it, at one moment.
make_folder() {
  local missing unborn made=1 rest
  trap '' INT TERM HUP
  clear_unborn
  find_missing "$prefix"
  rest=${prefix#"$missing"}
  while [[ $rest == */* ]]; do
    rest=${rest#*/}
    made=$((made + 1))
  done
  rest=$unborn${room#"$missing"}
  lock 8 "${missing%/*}/"
  refuse_what_is_there "$missing"
  if ! mkdir -p -- "$rest" || ! printf '%s\n' "$made" > "$rest/made" || ! mv -nT -- "$unborn" "$missing" || [ -e "$unborn" ]; then
    rm -rf -- "$unborn"
    say "$prefix couldn't be made; the line before it says why"
    exit "$NO_ANSWER"
  fi
  exec 8<&-
}

# Takes the room away, and with it so many of the folders that were made, from the prefix up, as have nothing else in them.
leave() {
  local made=$1 top=$prefix away
  if [ "$made" -eq 0 ] || ! is_empty "$prefix" "$room"; then
    rm -rf -- "$room"
    return
  fi
  while [ $((made -= 1)) -gt 0 ] && is_empty "${top%/*}" "$top"; do top=${top%/*}; done
  away=${top%/*}/.${top##*/}$BESIDE
  lock 8 "${top%/*}/"
  mv -nT -- "$top" "$away" && [ ! -e "$top" ] && rm -rf -- "$away/${room#"$top/"}" && find "$away" -depth -type d -empty -delete && [ ! -e "$away" ]
}

# Whether what is in the room's place is one, by the names in it.
is_room() {
  local entry
  if [ -L "$room" ] || [ ! -d "$room" ]; then
    strange+=("$room")
    return 1
  fi
  for entry in "$room"/* "$room"/.*; do
    case ${entry##*/} in
      new | before | plan | plan.new | "done" | made | '*' | '.*' | . | ..) ;;
      *) strange+=("$entry") ;;
    esac
  done
  [ ${#strange[@]} -eq 0 ]
}

# Has a call that ended in the midst of its work leave all as it was before, or as it is after it; which of these, in `mended`: `nothing` to
# do, `back`, or `finished`.
mend() {
  local made=0 names
  strange=()
  mended=nothing
  [ -e "$room" ] || [ -L "$room" ] || return 0
  mended=back
  plan=()
  is_room || return
  # The folders of `before` are as those whose files it has, and these may forbid to write there.
  find "$room" -type d ! -perm -700 -exec chmod u+rwx -- {} + || return
  [ ! -f "$room/made" ] || read -r made < "$room/made" || made=0
  if [ -f "$room/done" ]; then
    mended=finished
    mapfile -t plan < "$room/done"
    names_of empty
    remove_empty "${names[@]}"
    [ ${#strange[@]} -eq 0 ] || return
    names_of made
    made=${names[0]-0}
  elif [ -f "$room/plan" ]; then
    mapfile -t plan < "$room/plan"
    take_back || return
  fi
  leave "$made"
}

# Ends a call for this reason. What it had begun is taken back.
give_up() {
  local strange=() name
  trap '' INT TERM HUP
  if mend; then
    case $mended in
      finished) say "$1; all that was asked is done" ;;
      *) say "$1; nothing was changed in $prefix" ;;
    esac
  else
    for name in "${strange[@]}"; do say "$name isn't as it was before"; done
    say "$1; what was there before is kept in $room: $ONCE_MORE"
  fi
  exit "${2:-$NO_ANSWER}"
}

# Has this call be the only one in the folder, and take back what it had begun where a signal ends it.
take_folder() {
  lock 9 "$prefix/"
  trap 'give_up "ended by Ctrl-C" 130' INT
  trap 'give_up "ended by a signal" 143' TERM
  trap 'give_up "ended by a signal" 129' HUP
}

# Takes the folder, and mends what an earlier call left there. Says what that was.
open_folder() {
  local strange=() name
  take_folder
  if ! mend; then
    for name in "${strange[@]}"; do say "$name is somebody's own, or can't be changed"; done
    say "an earlier call was broken off in $prefix, and what it began can't be taken back; move away what is named, and $ONCE_MORE"
    exit "$NO_ANSWER"
  fi
  case $mended in
    back) say "an earlier call was broken off in $prefix; what it had begun is taken back" ;;
    finished) say "an earlier call was broken off in $prefix; it is done now" ;;
  esac
}
