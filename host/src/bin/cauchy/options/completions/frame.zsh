#compdef cauchy
# zsh completions of cauchy; made by `cauchy completions zsh`
_cauchy() {
  if (( CURRENT == 2 )); then
    _cauchy_commands
    return
  fi
  shift words
  (( CURRENT-- ))
  # behind `at DIR N` come the words of a reading, whose DIR has been given
  if [[ $words[1] == at ]] && (( CURRENT > 4 )); then
    words=("$words[4]" "$words[2]" "${(@)words[5,-1]}")
    (( CURRENT -= 2 ))
  fi
  _cauchy_words_of "$words[1]"
}
