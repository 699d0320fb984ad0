# zsh -f completed.zsh FILE LINE: what zsh offers at the end of the line by the completion in the file, each in a line.
#
# Completion works in the line editor alone; so a second zsh is given a terminal, and each word that is added is printed.
zmodload zsh/zpty
zpty line zsh -f -i
zpty -w line "PROMPT= RPROMPT= file=${(q)1}"
zpty -w line 'autoload -Uz compinit; compinit -u -D
_from_file() { source $file }
compdef _from_file topichub
compadd() {
    if [[ ${@[1,(i)(-|--)]} != *-(O|A|D)\ * ]]; then
        local -a offered
        builtin compadd -A offered "$@"
        [[ -z $offered ]] || print -rl -- "<OFFERED>"${^offered}
    fi
    builtin compadd "$@"
}
bindkey "^I" list-choices
print "<READY""NOW>"'
zpty -r -m line told '*<READYNOW>*'
zpty -w -n line "$2"$'\t\C-U'
zpty -w line 'print "<DONE""NOW>"'
zpty -r -m line told '*<DONENOW>*'
for row in ${(f)told}; do
    [[ $row == *'<OFFERED>'* ]] && print -r -- ${${row#*<OFFERED>}%$'\r'}
done
zpty -d line
exit 0
