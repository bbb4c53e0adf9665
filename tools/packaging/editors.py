"""What a shell and editors are told of the commands and of the language: made of the page of help and of the grammar."""
import json
import os
import re
import sys

import places

sys.path.append(f"{places.TOOLS}/explain")
import grammar

COMMANDS = ["run", "many", "chain", "check", "demo", "rows", "answers", "tick", "prove", "help"]
HELP = ["docs/help.txt", "tools/rows/help.txt"]


def rule(name):
    """The keywords of a rule of the grammar."""
    body = re.search(rf"^{name} *= (.*)$", grammar.GRAMMAR, re.M)[1]
    return sorted(set(re.findall(r"\b[A-Z]{2,}\b", body)))


# The keywords by what they are to an editor.
KINDS = {"function": rule("Item"), "operator": sorted({"AND", "OR", "NOT"}), "stream": rule("Word")}
KINDS["keyword"] = sorted(grammar.KEYWORDS.difference(*KINDS.values()))


def help_lines():
    return [line for name in HELP if os.path.exists(f"{places.TOP}/{name}") for line in places.text_of(name).splitlines()]


def options_of(command):
    """The options of a command, by the lines of the page of help that begin with it."""
    lines = help_lines()
    usages = [line for line in lines if re.match(rf" *(saber )?{command}\b", line)]
    found = [it for line in usages for it in re.findall(r"--[a-z][a-z-]*", line)]
    if any("[OPTIONS]" in line for line in usages):
        found += [it for line in lines for it in re.findall(r"^  (--[a-z-]+) [A-Z]", line)]
    return sorted(set(found))


def valued():
    """The options that a number follows."""
    return sorted(re.findall(r"^  (--[a-z-]+) [A-Z]", places.text_of("docs/help.txt"), re.M))


COMPLETION = """\
# Completion of `saber` for bash.
_saber() {{
    local word=${{COMP_WORDS[COMP_CWORD]}} options=
    if [ "$COMP_CWORD" = 1 ]; then
        mapfile -t COMPREPLY < <(compgen -W "{commands} --version" -- "$word")
        return
    fi
    case ${{COMP_WORDS[COMP_CWORD - 1]}} in
    {valued}) return ;;
    esac
    case ${{COMP_WORDS[1]}} in
{cases}
    help)
        mapfile -t COMPREPLY < <(compgen -W "{commands}" -- "$word")
        return
        ;;
    esac
    case $word in
    -*) mapfile -t COMPREPLY < <(compgen -W "$options" -- "$word") ;;
    *) mapfile -t COMPREPLY < <(compgen -f -- "$word") ;;
    esac
}}
complete -o filenames -F _saber saber
"""


def completion():
    cases = [f'    {it}) options="{" ".join(options_of(it))}" ;;' for it in COMMANDS if it != "help" and options_of(it)]
    return COMPLETION.format(commands=" ".join(COMMANDS), valued=" | ".join(valued()), cases="\n".join(cases))


VIM_GROUPS = {"function": "Function", "operator": "Operator", "stream": "Special", "keyword": "Statement"}


def vim_syntax():
    words = [f"syntax keyword saber{VIM_GROUPS[kind]} {' '.join(names)}" for kind, names in KINDS.items()]
    links = [f"highlight default link saber{group} {group}" for group in VIM_GROUPS.values()]
    return "\n".join([
        '" The queries of saber.', "if exists('b:current_syntax')", "  finish", "endif", "syntax case ignore", *words,
        r"syntax match saberNumber /\<\d\+\>/", r"syntax match saberOperator /[-+*=]\|<[=>]\?\|>=\?/",
        *links, "highlight default link saberNumber Number", "let b:current_syntax = 'saber'", "",
    ])


VIM_DETECT = "autocmd BufRead,BufNewFile *.cql setlocal filetype=saber\n"
SCOPES = {"function": "support.function", "operator": "keyword.operator.word", "stream": "storage.modifier", "keyword": "keyword.control"}


def textmate():
    words = [{"name": f"{SCOPES[kind]}.saber", "match": rf"(?i)\b({'|'.join(names)})\b"} for kind, names in KINDS.items()]
    signs = [
        {"name": "constant.numeric.saber", "match": r"\b[0-9]+\b"},
        {"name": "keyword.operator.saber", "match": r"<>|<=|>=|[-+*=<>]"},
    ]
    told = {"name": "saber", "scopeName": "source.saber", "fileTypes": ["cql"], "patterns": words + signs}
    return json.dumps(told, indent=2) + "\n"
