# What zsh completes: `zsh -f asked.zsh COMPLETION` reads the beginnings of command lines, one on each line, and prints for each
# what may follow, a line each, and then a line `.`. A shell of its own is typed to through a pseudo-terminal.
if [[ $1 == --inner ]]; then
    PROMPT= RPROMPT=
    stty -echo
    autoload -Uz compinit
    compinit -u -D
    source $2
    bindkey '^I' complete-word
    unset zle_bracketed_paste
    # What is offered is told as well.
    compadd() {
        if [[ ${argv[1,(i)(-|--)]} == *-(O|A|D)\ * ]]; then
            builtin compadd "$@"
            return
        fi
        local -a found
        builtin compadd -A found "$@"
        print -rl -- FOUND:${^found}
        builtin compadd "$@"
    }
    tell_end() {
        print THE-END
        comppostfuncs=(tell_end)
    }
    comppostfuncs=(tell_end)
    print IT-IS-READY
else
    zmodload zsh/zpty
    zpty inner zsh -f -i
    zpty -w inner "source ${(q)0:A} --inner ${(q)1}"
    zpty -r -m inner out '*IT-IS-READY*'
    while IFS= read -r line; do
        zpty -w -n inner $'\x15'$line$'\t'
        zpty -r -m inner out '*THE-END*'
        print -r -- $out | tr -d '\r' | sed -n 's/^.*FOUND:\(.\)/\1/p' | sed 's/\\\(.\)/\1/g'
        print .
    done
    zpty -d inner
fi
