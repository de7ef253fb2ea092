# bash completions of cauchy; made by `cauchy completions bash`
_cauchy() {
    local current=${COMP_WORDS[COMP_CWORD]} before=${COMP_WORDS[COMP_CWORD-1]} command=${COMP_WORDS[1]} first=2
    COMPREPLY=()
    if [ "$COMP_CWORD" -eq 1 ]; then
        _cauchy_words "$_cauchy_commands --help --version"
        return
    fi
    # behind `at DIR N` come the words of a reading, whose DIR has been given
    local operands=0
    if [ "$command" = at ] && [ "$COMP_CWORD" -gt 4 ]; then
        command=${COMP_WORDS[4]} first=5 operands=1
    fi
    # bash breaks words at `=`, which is then a word by itself
    if [ "$current" = = ]; then
        current=
    elif [ "$before" = = ]; then
        before=${COMP_WORDS[COMP_CWORD-2]}
    fi
    if _cauchy_has_value "$before"; then
        _cauchy_value "$before"
        return
    fi
    local options i word is_value=
    options=" $(_cauchy_options "$command") "
    for ((i = first; i < COMP_CWORD; i++)); do
        word=${COMP_WORDS[i]}
        options=${options/ $word / }
        if [ -n "$is_value" ]; then
            [ "$word" = = ] || is_value=
        elif [ "${word:0:2}" != -- ]; then
            operands=$((operands + 1))
        elif _cauchy_has_value "$word"; then
            is_value=yes
        fi
    done
    case $current in
        -*) _cauchy_words "$options --help" ;;
        *) _cauchy_operand "$command $((operands + 1))" ;;
    esac
}
_cauchy_words() { mapfile -t COMPREPLY < <(compgen -W "$1" -- "$current"); }
_cauchy_files() { compopt -o default 2>/dev/null; }
_cauchy_folders() { compopt -o dirnames 2>/dev/null; }
_cauchy_has_value() { case $_cauchy_valued in *" $1 "*) ;; *) false ;; esac }
