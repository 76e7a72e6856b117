"""Completions for bash, zsh and fish, made from the helps of the program. A network, and the number of a release, are
those of the database or the desk that the line names so far, as `canoffice show` prints them.
"""
import re

# Value names of which each is a path.
PATHS = {"FILE", "SCRIPT", "ORIGINAL"}
# The value name of options that may have no value: one follows `=` alone.
NAMES = "NAMES"


def quoted(text):
    return "'" + text.replace("'", "'\\''") + "'"


def argument_kinds(help):
    """What each argument of a help is completed with: `dbc`, `path`, `net`, `release`, `words:..` or `none`. What comes after
    a `|` counts where the line names an office."""
    kinds = []
    for words, text in help.arguments():
        name = words.strip("<>[].")
        if name in PATHS:
            kinds.append("dbc" if "DBC" in text else "path")
        elif "DBC file" in text and "of an office" in text:
            kinds.append("dbc|release" if "release" in text else "dbc|net")
        elif name == "NET":
            kinds.append("net")
        elif name == "N" and any("net" in kind for kind in kinds):
            kinds.append("release")
        elif name == "WHAT":
            kinds.append("words:" + " ".join(re.findall(r"(\w+)(?: \([^)]*\))?(?:,|$)", text)))
        else:
            kinds.append("none")
    return kinds


def offices(help):
    """The options of a help that name an office, each with a blank after it."""
    return [option.long for option in help.options() if option.value and option.long in ("--db", "--port")]


# bash.

BASH_TOP = r"""# Completion of canoffice for bash, made from its helps.

# Prints what `canoffice show` prints of the office that the line names, or nothing.
_canoffice_show() {
    [ "${#office[@]}" -eq 2 ] && "${COMP_WORDS[0]}" show "${office[@]}" "$@" 2>/dev/null </dev/null
}

# Reads the words before the one that is completed: the office that they name, and the arguments.
_canoffice_read() {
    local at word
    office=() arguments=()
    for ((at = 2; at < COMP_CWORD; at++)); do
        word=${COMP_WORDS[at]}
        case " $valued " in
            *" $word "*)
                at=$((at + 1))
                [ "${COMP_WORDS[at]}" != = ] || at=$((at + 1))
                case $word in
                    --db | --port) [ "$at" -ge "$COMP_CWORD" ] || office=("$word" "${COMP_WORDS[at]}") ;;
                esac
                continue
                ;;
        esac
        case $word in
            =) at=$((at + 1)) ;;
            -?*) ;;
            *) arguments+=("$word") ;;
        esac
    done
}

_canoffice() {
    local current=${COMP_WORDS[COMP_CWORD]} previous=${COMP_WORDS[COMP_CWORD - 1]} options= valued= paths= words= kind=
    local named= after=
    local -a kinds=() office=() arguments=()
    if [ "$previous" = = ]; then
        previous=${COMP_WORDS[COMP_CWORD - 2]} after=yes
    elif [ "$current" = = ]; then
        current= after=yes
    fi
    if [ "$COMP_CWORD" -eq 1 ]; then
        options=@COMMANDS@
    else
        case ${COMP_WORDS[1]} in
"""

BASH_END = r"""            help)
                [ "$COMP_CWORD" -gt 2 ] || options=@NAMES@
                ;;
        esac
    fi
    COMPREPLY=()
    case "$after $named " in yes*" $previous "*) return ;; esac
    case " $valued " in
        *" $previous "*)
            case " $paths " in *" $previous "*) kind=path ;; *) return ;; esac
            ;;
        *)
            _canoffice_read
            [[ $current == -* ]] || kind=${kinds[${#arguments[@]}]}
            case $kind in
                *"|"*) if [ "${#office[@]}" -eq 2 ]; then kind=${kind#*|}; else kind=${kind%|*}; fi ;;
            esac
            ;;
    esac
    case $kind in
        path | dbc)
            compopt -o filenames 2>/dev/null
            if [ "$kind" = dbc ]; then
                mapfile -t COMPREPLY < <(compgen -f -X '!*.dbc' -- "$current"; compgen -d -- "$current")
            else
                mapfile -t COMPREPLY < <(compgen -f -- "$current")
            fi
            return
            ;;
        net) words=$(_canoffice_show | cut -d ' ' -f 1) ;;
        release) words="0 $(_canoffice_show "${arguments[0]}" releases | awk '$1 != "releases" { print $1 }')" ;;
        words:*) words=${kind#words:} ;;
        none) return ;;
        *) words=$options ;;
    esac
    mapfile -t COMPREPLY < <(compgen -W "$words" -- "$current")
}
complete -F _canoffice canoffice
"""


def bash_arm(name, help):
    options = " ".join(word for option in help.options() for word in option.names())
    values = [option for option in help.options() if option.value and option.value != NAMES]
    named = [option.names()[-1] for option in help.options() if option.value == NAMES]
    paths = [option.names()[-1] for option in values if option.value in PATHS]
    arms = [f"            {name})", f"                options={quoted(options)}"]
    if values:
        arms.append(f"                valued={quoted(' '.join(option.names()[-1] for option in values))}")
    if paths:
        arms.append(f"                paths={quoted(' '.join(paths))}")
    if named:
        arms.append(f"                named={quoted(' '.join(named))}")
    kinds = argument_kinds(help)
    if any(kind != "none" for kind in kinds):
        arms.append(f"                kinds=({' '.join(map(quoted, kinds))})")
    return [*arms, "                ;;"]


def bash(main, commands):
    names = " ".join(words for words, _ in main.commands())
    options = " ".join(word for option in main.options() for word in option.names())
    arms = [line for name, help in commands.items() for line in bash_arm(name, help)]
    return (BASH_TOP.replace("@COMMANDS@", quoted(f"{names} {options}")) + "\n".join(arms) + "\n" +
            BASH_END.replace("@NAMES@", quoted(names)))


# zsh.

ZSH_TOP = r"""#compdef canoffice
# Completion of canoffice for zsh, made from its helps.

# Prints what `canoffice show` prints of the office that the line names, or nothing.
_canoffice_show() {
    local option
    for option in --db --port; do
        if [[ -n ${opt_args[$option]} ]]; then
            command canoffice show $option ${(Q)opt_args[$option]} "$@" 2>/dev/null </dev/null
            return
        fi
    done
}

_canoffice_nets() {
    local -a nets
    nets=(${${(f)"$(_canoffice_show)"}%% *})
    compadd -a nets
}

_canoffice_releases() {
    local -a releases
    releases=(0 ${(f)"$(_canoffice_show ${(Q)line[1]} releases | awk '$1 != "releases" { print $1 }')"})
    compadd -a releases
}

_canoffice_has_office() {
    [[ -n ${opt_args[--db]} || -n ${opt_args[--port]} ]]
}

_canoffice_dbc_or_nets() {
    if _canoffice_has_office; then _canoffice_nets; else _files -g "*.dbc"; fi
}

_canoffice_dbc_or_releases() {
    if _canoffice_has_office; then _canoffice_releases; else _files -g "*.dbc"; fi
}

_canoffice() {
    local context state state_descr line
    typeset -A opt_args
    local -a commands
"""


def zsh_text(text):
    return re.sub(r"([\[\]:\\])", r"\\\1", text)


def zsh_option(option):
    if option.value == NAMES:
        return [quoted(f"{option.long}=-[{zsh_text(option.text)}]::{option.value}: ")]
    value = f":{option.value}:{'_files' if option.value in PATHS else ' '}" if option.value else ""
    return [quoted(f"{name}[{zsh_text(option.text)}]{value}") for name in option.names()]


ZSH_ACTIONS = {
    "dbc": '_files -g "*.dbc"', "path": "_files", "net": "_canoffice_nets", "release": "_canoffice_releases",
    "dbc|net": "_canoffice_dbc_or_nets", "dbc|release": "_canoffice_dbc_or_releases", "none": " "}


def zsh_argument(words, text, kind):
    action = f"({kind.removeprefix('words:')})" if kind.startswith("words:") else ZSH_ACTIONS[kind]
    optional = ":" if words.startswith("[") else ""
    first = "*" if words.endswith("...") else ""
    return quoted(f"{first}:{optional}{zsh_text(text)}:{action}")


def zsh(main, commands):
    cases = []
    for name, help in commands.items():
        words = [word for option in help.options() for word in zsh_option(option)]
        words += [zsh_argument(*item, kind) for item, kind in zip(help.arguments(), argument_kinds(help))]
        cases.append(f"            {name}) _arguments {' '.join(words)} ;;")
    described = " ".join(quoted(f"{name}:{zsh_text(text)}") for name, text in main.commands())
    options = " ".join(word for option in main.options() for word in zsh_option(option))
    return ZSH_TOP + f"""    commands=({described})
    _arguments -C {options} '1: :->command' '*:: :->arguments'
    case $state in
        command) _describe command commands ;;
        arguments) case $words[1] in
""" + "\n".join(cases) + """
            help) _describe command commands ;;
        esac ;;
    esac
}

_canoffice "$@"
"""


# fish.

FISH_TOP = r"""# Completion of canoffice for fish, made from its helps.

# Prints what `canoffice show` prints of the office that the line names, or nothing.
function __canoffice_show
    set -l words (commandline -opc) (commandline -ct)
    set -l office (string match -r -g -- '--(db|port)[= ](\S+)' "$words")
    test (count $office) -eq 2; and canoffice show --$office[1] $office[2] $argv 2>/dev/null </dev/null
end

# Prints the arguments of the line: its words after the subcommand without options and what belongs to them.
function __canoffice_arguments
    set -l skip no
    for word in (commandline -opc)[3..-1]
        if test $skip = yes
            set skip no
        else if contains -- $word --db --port --count --tries --keep
            set skip yes
        else if not string match -q -- '-*' $word
            echo $word
        end
    end
end

function __canoffice_has_office
    set -l words (commandline -opc)
    string match -q -r -- ' --(db|port)[= ]' "$words "
end

function __canoffice_at
    test (count (__canoffice_arguments)) -eq $argv[1]
end

complete -c canoffice -f
"""


def fish_option(option, condition):
    names = [f"-s {option.short[1:]}" if option.short else "", f"-l {option.long[2:]}" if option.long else ""]
    value = "" if option.value in ("", NAMES) else " -r -F" if option.value in PATHS else " -x"
    words = " ".join(filter(None, names)) + value
    return f"complete -c canoffice -n {quoted(condition)} {words} -d {quoted(option.text)}"


def fish_argument(at, kind, condition):
    """The line of an argument, or none where nothing is offered."""
    if "|" in kind:
        of_files, of_office = kind.split("|")
        forms = ((of_files, f"{condition}; and not __canoffice_has_office"), (of_office, f"{condition}; and __canoffice_has_office"))
        return "\n".join(fish_argument(at, *form) for form in forms)
    head = f"complete -c canoffice -n {quoted(f'{condition}; and __canoffice_at {at}')}"
    if kind == "dbc":
        return f"{head} -k -a '(__fish_complete_suffix .dbc | string match -r \".*(?:\\.dbc|/)(?:\\t.*)?\\$\")'"
    if kind == "path":
        return f"{head} -F"
    if kind == "net":
        return f"{head} -a '(__canoffice_show | string replace -r \" .*\" \"\")'"
    if kind == "release":
        return (f"{head} -a '0 (__canoffice_show (__canoffice_arguments)[1] releases "
                "| string match -r -g \"^ *(\\d+) \")'")
    return f"{head} -a {quoted(kind.removeprefix('words:'))}" if kind.startswith("words:") else None


def fish(main, commands):
    names = " ".join(name for name, _ in main.commands())
    first = f"not __fish_seen_subcommand_from {names}"
    lines = [f"complete -c canoffice -n {quoted(first)} -a {name} -d {quoted(text)}" for name, text in main.commands()]
    lines += [fish_option(option, first) for option in main.options()]
    for name, help in commands.items():
        condition = f"__fish_seen_subcommand_from {name}"
        arguments = [fish_argument(at, kind, condition) for at, kind in enumerate(argument_kinds(help))]
        lines += [*filter(None, arguments), *(fish_option(option, condition) for option in help.options())]
    lines.append(f"complete -c canoffice -n '__fish_seen_subcommand_from help' -a {quoted(names)}")
    return FISH_TOP + "\n".join(lines) + "\n"
