# Completion of bin/acpi_events for bash. In ~/.bashrc: . CLONE/tools/completions/acpi_events.bash

_acpi_events() {
    local word=${COMP_WORDS[COMP_CWORD]} commands='run replay check make' place=$COMP_CWORD command=${COMP_WORDS[1]}
    COMPREPLY=()
    if [ "$command" = --proved ] && [ "$place" -gt 1 ]; then
        command=${COMP_WORDS[2]}
        place=$((place - 1))
    fi
    if [ "$place" -eq 1 ]; then
        [ "$COMP_CWORD" -gt 1 ] || commands="$commands --prove --proved --help --version"
        mapfile -t COMPREPLY < <(compgen -W "$commands" -- "$word")
    elif [ "$place" -eq 2 ]; then
        case $command in
        run | replay) mapfile -t COMPREPLY < <(compgen -o plusdirs -f -X '!*.json' -- "$word") ;;
        check) mapfile -t COMPREPLY < <(compgen -o plusdirs -f -X '!*.log' -- "$word") ;;
        esac
        # Hidden names are given only where one is begun.
        if [ -z "${word##*/}" ]; then
            local name shown=()
            for name in "${COMPREPLY[@]}"; do
                [[ ${name##*/} == .* ]] || shown+=("$name")
            done
            COMPREPLY=("${shown[@]}")
        fi
    fi
}

complete -o filenames -F _acpi_events acpi_events bin/acpi_events ./bin/acpi_events
