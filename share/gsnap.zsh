#compdef gsnap
# Completes the words of gsnap in zsh. share/make wrote this file.

_gsnap_commands() {
    local -a commands
    commands=(
        'check:Compiles the program in a file, and prints ok'
        'plan:Compiles the program in a file, and prints its plan'
        'script:Compiles the programs in files, runs the script in a file, and prints its replies'
        'race:Runs programs while a script'\''s batches are committed'
        'explain:Says what the number of a refusal means, and what to do'
        'help:Print this message or the help of the given subcommand(s)'
    )
    _describe -t commands command commands
}

_gsnap() {
    local command=$words[2]
    if ((CURRENT == 2)); then
        _arguments '(-h --help)'{-h,--help}'[Print help]' '(-V --version)'{-V,--version}'[Print version]' '1:command:_gsnap_commands'
        return
    fi
    shift words
    ((CURRENT--))
    case $command in
    check) _arguments '(-h --help)'{-h,--help}'[Print help]' '1:FILE:_files -g "*.program"' ;;
    plan) _arguments '(-h --help)'{-h,--help}'[Print help]' '1:FILE:_files -g "*.program"' ;;
    script) _arguments '(-h --help)'{-h,--help}'[Print help]' '1:SCRIPT:_files -g "*.script"' '*:PROGRAM:_files -g "*.program"' ;;
    race) _arguments --workers'[How many workers a run has, 1 to 64; 2 if none is given]:value:' --turns'[How many turns a run may use; 1000000 if none is given]:value:' '(-h --help)'{-h,--help}'[Print help]' '1:SCRIPT:_files -g "*.script"' '*:PROGRAM:_files -g "*.program"' ;;
    explain) _arguments '1:N:(201 202 203 211 212 221 222 223 224 225 226 227 228 229 301 302 303 304 305 306 307 308 103 111 121 122 123 124 125 411 412 413 801 900 901 902)' ;;
    help) _arguments '1:COMMAND:_gsnap_commands' ;;
    esac
}

_gsnap "$@"
