"""Completions for bash, zsh and fish, made from a help text.

They offer the options that a form of the help text has beside those that are on the line, each once; files where a
value or an argument is one; and the numbers of a short range.
"""

import re

MADE = "# Completion of {} for {}, made from its help text."


def quoted(text):
    """A word of a shell."""
    return "'" + text.replace("'", "'\\''") + "'"


def function_of(program):
    return "_" + re.sub(r"\W", "_", program)


def long_words(options):
    """The words that are offered: names, and letters of what has no name."""
    return " ".join(it.words[-1] for it in options)


def bash_value(option):
    """What bash completes as an option's value."""
    yield f"        {'|'.join(option.words)})"
    if option.takes_folder:
        yield "            compopt -o dirnames"
    elif option.takes_file:
        yield "            compopt -o default"
    elif option.choices:
        yield f'            COMPREPLY=($(compgen -W {quoted(" ".join(option.choices))} -- "$word"))'
    yield "            return ;;"


def bash_offered(help):
    """How bash takes from what is offered what doesn't go with the words before."""
    yield '    for given in "${COMP_WORDS[@]:1:COMP_CWORD - 1}"; do'
    yield "        case $given in"
    for it in help.options:
        yield f"            {'|'.join(it.words)}) beside={quoted(long_words(help.beside(it)))} ;;"
    yield "            --) compopt -o default; return ;;" if help.arguments else "            --) return ;;"
    yield "            *) continue ;;"
    yield "        esac"
    yield "        kept="
    yield "        for option in $offered; do"
    yield '            [[ " $beside " == *" $option "* ]] && kept+=" $option"'
    yield "        done"
    yield "        offered=$kept"
    yield "    done"


def bash(help):
    """A completion for bash. File names are left to readline, which quotes them."""
    name = function_of(help.program)
    yield MADE.format(help.program, "bash")
    yield f"{name}()\n{{"
    yield "    local word=${COMP_WORDS[COMP_CWORD]} before=${COMP_WORDS[COMP_CWORD - 1]}"
    yield f"    local offered={quoted(long_words(help.options))}"
    yield "    local given beside option kept"
    yield "    COMPREPLY=()"
    yield "    if [[ $word == '=' ]]; then"
    yield "        word="
    yield "    elif [[ $before == '=' ]]; then"
    yield "        before=${COMP_WORDS[COMP_CWORD - 2]}"
    yield "    fi"
    yield "    case $before in"
    for it in help.options:
        yield from bash_value(it) if it.value else ()
    yield "    esac"
    yield "    # Each word before takes away what doesn't go with it."
    yield from bash_offered(help)
    yield "    if [[ $word == -* ]]; then"
    yield '        COMPREPLY=($(compgen -W "$offered" -- "$word"))'
    yield "    else"
    yield "        compopt -o default" if help.arguments else "        return"
    yield "    fi"
    yield "}"
    yield f"complete -F {name} {help.program}"


def in_zsh(text):
    """A text in a specification of zsh's _arguments."""
    return re.sub(r"([\\:\[\]])", r"\\\1", text)


def zsh_value(option):
    """What zsh completes as an option's value."""
    if option.value is None:
        return ""
    action = "_files -/" if option.takes_folder else "_files" if option.takes_file else " "
    if option.choices:
        action = f"({' '.join(in_zsh(it) for it in option.choices)})"
    return f":{in_zsh(option.value)}:{action}"


def zsh(help):
    """A completion for zsh, as a file of its function path."""
    yield f"#compdef {help.program}"
    yield MADE.format(help.program, "zsh")
    yield "_arguments -S : \\"
    for it in help.options:
        apart = [word for one in [*help.apart(it), it] for word in one.words]
        if not help.beside(it):
            apart.append("*")
        but, rest = " ".join(apart), f"[{in_zsh(it.help)}]{zsh_value(it)}"
        for word in it.words:
            behind = ("=" if word.startswith("--") else "+") if it.value else ""
            yield f"    {quoted(f'({but}){word}{behind}{rest}')} \\"
    files = [f"{at}:{in_zsh(it.name)}:_files" for at, it in enumerate(help.arguments, 1)] or ["*: : "]
    for it in files[:-1]:
        yield f"    {quoted(it)} \\"
    yield f"    {quoted(files[-1])}"


def in_fish(text):
    """A word of fish."""
    return "'" + text.replace("\\", "\\\\").replace("'", "\\'") + "'"


def fish_given(options):
    """Whether one of these options is on the line, for fish."""
    letters = "".join(f" -s {it.letter}" for it in options if it.letter)
    return f"__fish_contains_opt{letters}{''.join(f' {it.name}' for it in options if it.name)}"


def fish_condition(help, option):
    """When an option is offered, and its value right behind it."""
    if not option.value:
        return f"not {fish_given([*help.apart(option), option])}"
    once = f"begin; __fish_prev_arg_in {' '.join(option.words)}; or not {fish_given([option])}; end"
    apart = help.apart(option)
    return f"not {fish_given(apart)}; and {once}" if apart else once


def fish(help):
    """A completion for fish."""
    yield MADE.format(help.program, "fish")
    for it in help.options:
        words = ["complete", "-c", help.program, "-n", in_fish(fish_condition(help, it))]
        words += ["-s", it.letter] if it.letter else []
        words += ["-l", it.name] if it.name else []
        if it.takes_file or it.takes_folder:
            words += ["-r", "-F"] if it.takes_file else ["-x", "-a", in_fish("(__fish_complete_directories)")]
        elif it.value:
            words += ["-x", "-a", in_fish(" ".join(it.choices))] if it.choices else ["-x"]
        yield " ".join([*words, "-d", in_fish(it.help)])
