# Completion for bash: source tools/editor/completion.bash
# In zsh: autoload -U +X bashcompinit && bashcompinit, and then the same.
#
# It knows the words of ./avsim, and asks each program of tools/ and view/ for its own by --help.

_avsim_files() {
  local file
  while IFS= read -r file; do
    COMPREPLY+=("$file")
  done < <(compgen -f -- "$1")
}

_avsim_words() {
  local word
  while IFS= read -r word; do
    COMPREPLY+=("$word")
  done < <(compgen -W "$1" -- "$2")
}

_avsim_commands="spawn fork exit mmap munmap mprotect mremap madvise mlock munlock read write maps
  areas rmap entry stat swapon swapoff slot reclaim age complete merge compact"

# The words of ./avsim, and behind one of them its --help, or what else stands there: files where a
# trace, a transcript or a swap file may.
_avsim() {
  local begun=${COMP_WORDS[COMP_CWORD]} first=${COMP_WORDS[1]} at=$COMP_CWORD
  COMPREPLY=()
  if [ "$first:${COMP_WORDS[2]}" = check:--marks ] && [ "$at" -gt 2 ]; then
    at=$((at - 1))
  fi
  case $at:$first:$begun in
    1:*) _avsim_words "run replay work audit talk page why check help test build --help --version" \
      "$begun" ;;
    2:test:*) _avsim_words --quick "$begun" ;;
    2:help:*) _avsim_words "$_avsim_commands" "$begun" ;;
    2:check:-*) _avsim_words "--help --marks" "$begun" ;;
    2:replay:-* | 2:run:* | 2:work:* | 2:audit:* | 2:talk:* | 2:why:* | 2:page:-*)
      _avsim_words --help "$begun" ;;
    2:replay:* | [23]:check:* | [5-9]:check:* | 1[0-2]:check:*) _avsim_files "$begun" ;;
    [2-9]:page:* | 1[01]:page:* | [3-9]:run:* | 10:run:* | [3-9]:audit:* | 10:audit:* | \
      [3-9]:talk:* | 10:talk:*)
      _avsim_files "$begun" ;;
    [5-9]:work:* | 1[0-2]:work:*) _avsim_files "$begun" ;;
  esac
}

# A word that begins with - is one of those that the program's usage has.
_avsim_tool() {
  local begun=${COMP_WORDS[COMP_CWORD]}
  COMPREPLY=()
  case $begun in
    -*)
      _avsim_words "--help $("${COMP_WORDS[0]}" --help 2>/dev/null | sed '/^$/q' |
        grep -o -E '[[ ]--?[a-z][a-z-]*' | tr -d '[ ')" "$begun"
      ;;
    *) _avsim_files "$begun" ;;
  esac
}

complete -o filenames -F _avsim avsim ./avsim
for _avsim_name in tools/{compare-maps,compare-smaps,from-strace,json,kernel-swaps,make-swap,on-linux,real-areas,record,sum,work-trace,exercise} \
  view/{run,lessons}; do
  complete -o filenames -F _avsim_tool "$_avsim_name" "./$_avsim_name"
done
unset _avsim_name
