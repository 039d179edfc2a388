#!/bin/sh
# Prints what a shell needs to complete the words of ./os and of gubnatris, made of docs/commands.txt.
#   . <(tools/completions.sh bash)                      in bash, as a line of ~/.bashrc
#   tools/completions.sh zsh >FOLDER/_os                in zsh, FOLDER being one of $fpath
commands=$(dirname -- "$0")/../docs/commands.txt

# SHELL: the rules of all commands, for it. A command's flags are the words with -- that its lines have.
rules() {
    awk -v shell="$1" '
        function end_command(k, list) {
            if (command == "") return
            for (k = 1; k <= flags; k++) list = list (k > 1 ? " " : "") flag[k]
            names = names (names == "" ? "" : " ") command
            described = described sprintf("        %c%s:%s%c\n", 39, command, does, 39)
            if (command == "call") list = list " solve getJobID send retrieve knock kill"
            arms = arms sprintf("        %s) choices=\"%s\" ;;\n", command, list)
            flags = 0
            delete seen
        }
        $1 == "command" { end_command(); command = $2 }
        $1 == "does" { does = $0; sub(/^does /, "", does); gsub(/\047|:/, "", does) }
        $1 == "words" || $1 == "takes" || $1 == "gives" {
            line = $0
            while (match(line, /--[a-z]+/)) {
                found = substr(line, RSTART, RLENGTH)
                line = substr(line, RSTART + RLENGTH)
                if (!(found in seen)) { seen[found] = 1; flag[++flags] = found }
            }
        }
        $1 == "status" { end_command(); command = "" }
        END {
            sub(/        help\) choices="[^"]*"/, "        help) choices=\"" names "\"", arms)
            printf "%s", shell == "bash" ? bash() : zsh()
        }
        function bash() {
            return "_gubnatris() {\n" \
                "    local word=${COMP_WORDS[COMP_CWORD]} choices=\n" \
                "    if [ \"$COMP_CWORD\" -eq 1 ]; then\n" \
                "        mapfile -t COMPREPLY < <(compgen -W \"" names "\" -- \"$word\")\n" \
                "        return\n" \
                "    fi\n" \
                "    case ${COMP_WORDS[1]} in\n" arms "    esac\n" \
                "    mapfile -t COMPREPLY < <(compgen -W \"$choices\" -- \"$word\"; [[ $word == -* ]] || compgen -f -- \"$word\")\n" \
                "}\n" \
                "complete -o filenames -F _gubnatris ./os os gubnatris\n"
        }
        function zsh() {
            return "#compdef os gubnatris\n" \
                "local choices=\n" \
                "if (( CURRENT == 2 )); then\n" \
                "    local -a commands\n    commands=(\n" described "    )\n" \
                "    _describe command commands\n" \
                "else\n" \
                "    case ${words[2]} in\n" arms "    esac\n" \
                "    compadd -- ${=choices}\n" \
                "    [[ $PREFIX == -* ]] || _files\n" \
                "fi\n"
        }
    ' "$commands"
}

case ${1-} in
    bash | zsh) rules "$1" ;;
    *)
        echo "usage: tools/completions.sh bash | zsh" >&2
        exit 2
        ;;
esac
