# Completions of tso for bash.

_tso_options() {
  case $1 in
    run) echo --protocol --depth --sets --ways --words --bus --instructions --json --help ;;
    trace) echo --protocol --depth --sets --ways --words --bus --instructions --json --help ;;
    sweep) echo --protocol --depth --sets --ways --words --bus --instructions --from --seeds --length --help ;;
    counts) echo --protocol --depth --sets --ways --words --bus --instructions --from --seeds --length --given --json --help ;;
    outcomes) echo --depth --states --show --instructions --assert --json --help ;;
    why) echo --model --cases --instructions --assert --json --help ;;
    check) echo --instructions --help ;;
    witness) echo --depth --instructions --help ;;
    tables) echo --protocol --help ;;
    help) echo run trace sweep counts outcomes why check witness tables help ;;
    *) echo run trace sweep counts outcomes why check witness tables help --help --version ;;
  esac
}

_tso_values() {
  case $1 in
    --protocol) echo msi mesi moesi mosi ;;
    --bus) echo atomic split ;;
    --words) echo 1 2 4 ;;
    --model) echo tso sc ;;
    --show) echo condition registers all ;;
    --instructions) echo basic all ;;
    --depth | --sets | --ways | --from | --seeds | --length | --states | --cases) echo ;;
    *) return 1 ;;
  esac
}

# What the script ./tso has beside its program's words, after nothing and after each of its own.
_tso_script() {
  case ${1-} in
    --install) echo --verbose ;;
    --prove | --uninstall | --program) echo ;;
    *) echo --prove --install --uninstall --program ;;
  esac
}

_tso() {
  local word=${COMP_WORDS[COMP_CWORD]} before=${COMP_WORDS[COMP_CWORD - 1]} command= words
  [ "$COMP_CWORD" -lt 2 ] || command=${COMP_WORDS[1]}
  words=$(_tso_values "$before") || words=$(_tso_options "$command")
  # The script is called by a path. After a word of its own a folder is wanted, but where an option was begun.
  [[ ${COMP_WORDS[0]} != */* ]] || case $command in
    '') words+=" $(_tso_script)" ;;
    --prove | --install | --uninstall | --program) [[ $word == -* ]] && words=$(_tso_script "$command") || words= ;;
  esac
  COMPREPLY=($(compgen -W "$words" -- "$word"))
}

# After < a file is wanted, which is no word of tso; after --install a folder.
complete -o bashdefault -o default -F _tso tso
