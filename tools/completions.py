"""The completions for shells, made from what the program's help tells: of commands, options, the values of options where the help has
them, and files, in bash, zsh and fish."""
from helps import NAME

MADE = f"# Made by tools/pages.py from what `{NAME} --help` and `{NAME} COMMAND --help` print."


def spellings(options):
    return " ".join(spelling for option in options for spelling in option.spellings)


def bash(whole, commands):
    """The file for bash, which is sourced."""
    with_values = {s: o.values for h in (whole, *(it[2] for it in commands)) for o in h.options if o.value
                   for s in o.spellings}
    yield MADE
    yield f"_{NAME}() {{"
    yield '    local word=${COMP_WORDS[COMP_CWORD]} command= at'
    yield '    for ((at = 1; at < COMP_CWORD; at++)); do'
    yield '        case ${COMP_WORDS[at]} in -*) ;; *) command=${COMP_WORDS[at]}; break ;; esac'
    yield '    done'
    yield '    COMPREPLY=()'
    if with_values:
        yield '    case ${COMP_WORDS[COMP_CWORD-1]} in'
        for spelling, values in with_values.items():
            yield f"""        {spelling}) COMPREPLY=($(compgen -W '{" ".join(values)}' -- "$word")); return ;;"""
        yield '    esac'
    yield '    case $command in'
    names = " ".join(name for name, _, _ in commands)
    for name, words, files in [("''", f"{names} {spellings(whole.options)}", whole.takes_files),
                               *((name, names if told.takes_commands else spellings(told.options), told.takes_files)
                                 for name, _, told in commands)]:
        yield f"        {name})"
        yield f"""            COMPREPLY=($(compgen -W '{words}' -- "$word"))"""
        if files:
            yield """            [[ $word == -* ]] || mapfile -t -O "${#COMPREPLY[@]}" COMPREPLY < <(compgen -f -- "$word")"""
        yield '            ;;'
    yield '    esac'
    yield '}'
    yield f"complete -o filenames -F _{NAME} {NAME}"


def quoted(text):
    """A text in single quotes, for a shell."""
    return "'" + text.replace("'", "'\\''") + "'"


def zsh_option(option):
    """An option as `_arguments` takes it."""
    about = option.about.replace("[", "\\[").replace("]", "\\]")
    value = f":value:({' '.join(option.values)})" if option.value else ""
    if len(option.spellings) == 1:
        return quoted(f"{option.spellings[0]}[{about}]{value}")
    both = " ".join(option.spellings)
    return f"{quoted(f'({both})')}{{{','.join(option.spellings)}}}{quoted(f'[{about}]{value}')}"


def zsh(whole, commands):
    """The file for zsh, a function of that name in a folder of `fpath`."""
    yield f"#compdef {NAME}"
    yield MADE
    yield f"_{NAME}() {{"
    yield "    local context state state_descr line"
    yield "    typeset -A opt_args"
    top = " ".join(zsh_option(option) for option in whole.options)
    yield f"    _arguments -C {top} '1: :->command' '*:: :->words' && return"
    yield "    case $state in"
    yield "        command)"
    yield "            local -a commands=("
    for name, about, _ in commands:
        yield f"                {quoted(name + ':' + about.replace(':', chr(92) + ':'))}"
    yield "            )"
    yield "            _describe command commands"
    if whole.takes_files:
        yield "            _files"
    yield "            ;;"
    yield "        words)"
    yield "            case $line[1] in"
    for name, _, told in commands:
        rest = " '*:file:_files'" if told.takes_files else ""
        if told.takes_commands:
            rest = f" '*:command:({' '.join(name for name, _, _ in commands)})'"
        yield f"                {name}) _arguments {' '.join(map(zsh_option, told.options))}{rest} ;;"
    yield "            esac"
    yield "            ;;"
    yield "    esac"
    yield "}"
    yield f'_{NAME} "$@"'


def fish_option(condition, option):
    words = [f"complete -c {NAME} -n {quoted(condition)}"]
    words += [f"-s {option.letter}"] if option.letter else []
    words += [f"-l {option.name}"] if option.name else []
    words += [f"-x -a {quoted(' '.join(option.values))}"] if option.value else []
    return " ".join([*words, f"-d {quoted(option.about)}"])


def fish(whole, commands):
    """The file for fish."""
    yield MADE
    yield f"complete -c {NAME} -f"
    for option in whole.options:
        yield fish_option("__fish_use_subcommand", option)
    if whole.takes_files:
        yield f"complete -c {NAME} -n '__fish_use_subcommand' -F"
    for name, about, told in commands:
        yield f"complete -c {NAME} -n '__fish_use_subcommand' -a {name} -d {quoted(about)}"
        inside = f"__fish_seen_subcommand_from {name}"
        for option in told.options:
            yield fish_option(inside, option)
        if told.takes_files:
            yield f"complete -c {NAME} -n {quoted(inside)} -F"
        if told.takes_commands:
            yield f"complete -c {NAME} -n {quoted(inside)} -a {quoted(' '.join(name for name, _, _ in commands))}"


def completions(whole, commands):
    """Each file's name with its text."""
    made = {f"{NAME}.bash": bash, f"_{NAME}": zsh, f"{NAME}.fish": fish}
    return {name: "".join(f"{line}\n" for line in write(whole, commands)) for name, write in made.items()}
