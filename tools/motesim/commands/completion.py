"""Writes the completion of the command `motesim` for bash.

  eval "$(motesim completion)"          for this shell; in ~/.bashrc, for all

The Tab key then completes verbs, their options, the values of an option if it has only some, and names of files.
"""
from __future__ import annotations

from importlib import import_module

from motesim.command import command
from motesim.home import VERBS
from motesim.words import Words, words_of

SCRIPT = """_motesim() {
  local word=${COMP_WORDS[COMP_CWORD]} last=${COMP_WORDS[COMP_CWORD - 1]} options= values=
  if [[ $COMP_CWORD == 1 ]]; then
    values='%s'
  fi
  case ${COMP_WORDS[1]} in
%s
  esac
  case "${COMP_WORDS[1]} $last" in
%s
  esac
  if [[ $word == -* ]]; then
    COMPREPLY=($(compgen -W "$options" -- "$word"))
  else
    COMPREPLY=($(compgen -W "$values" -- "$word") $(compgen -f -- "$word"))
  fi
}
complete -o filenames -F _motesim motesim"""


def parser() -> Words:
    return words_of(__doc__)


@command('completion')
def main() -> int:
    parser().parse_args()
    options, values = [], []
    for verb in VERBS:
        actions = import_module('motesim.commands.' + verb).parser()._actions
        names = ' '.join(name for it in actions for name in it.option_strings)
        options.append("    %s) options='%s' ;;" % (verb, names))
        values += ["    '%s %s') values='%s' ;;" % (verb, name, ' '.join(map(str, it.choices)))
                   for it in actions if it.choices for name in it.option_strings]
    print(SCRIPT % (' '.join(VERBS), '\n'.join(options), '\n'.join(values)))
    return 0
