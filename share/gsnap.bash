# Completes the words of gsnap in bash. share/make wrote this file.

# The kinds of the words of a command: a program or a script is a file of that ending, a number is one of a refusal, and a command
# is one of gsnap. A `*` means that there may be several.
_gsnap() {
    local word=${COMP_WORDS[COMP_CWORD]} words='' kinds='' kind='' count=0 at
    COMPREPLY=()
    [[ ${COMP_WORDS[COMP_CWORD - 1]} != @(--workers|--turns) ]] || return
    for ((at = 2; at < COMP_CWORD; at++)); do
        [[ ${COMP_WORDS[at]} == -?* || ${COMP_WORDS[at - 1]} == @(--workers|--turns) ]] || count=$((count + 1))
    done
    case $((COMP_CWORD > 1)),${COMP_WORDS[1]} in
    0,*) words='-h --help -V --version' kinds=command ;;
    1,check) words='-h --help' kinds='program' ;;
    1,plan) words='-h --help' kinds='program' ;;
    1,script) words='-h --help' kinds='script program*' ;;
    1,race) words='--workers --turns -h --help' kinds='script program*' ;;
    1,explain) words='' kinds='number' ;;
    1,help) words='' kinds='command' ;;
    esac
    for kind in $kinds; do
        ((count > 0)) && [[ $kind != *\* ]] || break
        count=$((count - 1)) kind=''
    done
    case ${kind%\*} in
    command) words+=' check plan script race explain help' ;;
    number) words+=' 201 202 203 211 212 221 222 223 224 225 226 227 228 229 301 302 303 304 305 306 307 308 103 111 121 122 123 124 125 411 412 413 801 900 901 902' ;;
    program | script)
        compopt -o filenames
        mapfile -t COMPREPLY < <(compgen -d -- "$word"; compgen -f -X "!*.${kind%\*}" -- "$word")
        ((${#COMPREPLY[@]} > 0)) || mapfile -t COMPREPLY < <(compgen -f -- "$word")
        ;;
    esac
    [[ $word == -* || $kind != @(program|script)* ]] || return
    COMPREPLY+=($(compgen -W "$words" -- "$word"))
}
complete -F _gsnap gsnap
