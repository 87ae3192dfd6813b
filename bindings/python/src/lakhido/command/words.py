"""The words of the command line."""
from __future__ import annotations

import argparse
from collections.abc import Callable, Sequence
from typing import TYPE_CHECKING, TypeAlias

from .. import __version__, formats
from . import actions

if TYPE_CHECKING:
    Commands: TypeAlias = argparse._SubParsersAction[argparse.ArgumentParser]

MOTIF = 'GUGUUCACAC (((....)))'
"""The motif of the examples."""

_ABOUT = '''Stores of folded RNA molecules, searched for motifs by the proved library. What is printed as a place has
passed its `verify`; the command itself is not proved.'''
_STATUS = 'Exit status: 0 found or done, 1 none, 2 wrong use or refused, 3 failed input or output.'


def parse(words: Sequence[str] | None) -> argparse.Namespace:
    """The words as settings, with the action to run in `action`. Wrong words end the program with status 2."""
    return make_parser().parse_args(words)


def make_parser() -> argparse.ArgumentParser:
    """The parser of the command and of all its subcommands."""
    parser = argparse.ArgumentParser('lakhido', description=_ABOUT, epilog=_STATUS)
    parser.add_argument('--version', action='version', version=f'lakhido {__version__}')
    commands = parser.add_subparsers(metavar='COMMAND', required=True)
    for add in (_import, _search, _show, _window, _list, _get, _rm, _verify, _stats):
        add(commands)
    return parser


def _command(commands: Commands, name: str, action: Callable[[argparse.Namespace], bool], about: str, example: str,
             more: str = '') -> argparse.ArgumentParser:
    """A subcommand of a store, with an example in its help."""
    command = commands.add_parser(
        name, help=about, description=f'{about[0].upper()}{about[1:]}.{more}',
        epilog=f'Example:\n  lakhido {name} {example}\n\n{_STATUS}',
        formatter_class=argparse.RawDescriptionHelpFormatter)
    command.set_defaults(action=action)
    command.add_argument('store', metavar='STORE', help='the folder of the store')
    return command


def _motifs(command: argparse.ArgumentParser) -> None:
    command.add_argument('--motif', metavar='TEXT', action='append', default=[],
                         help=f"bases and structure, as '{MOTIF}'; '' has no bases; may be given again")
    command.add_argument('--motif-file', metavar='FILE', action='append', default=[],
                         help='a file of motifs, of any format that import reads; may be given again')


def _forms(command: argparse.ArgumentParser) -> None:
    form = command.add_mutually_exclusive_group()
    form.add_argument('--tsv', dest='form', action='store_const', const='tsv',
                      help='columns parted by tabs, their names in the first line')
    form.add_argument('--json', dest='form', action='store_const', const='json', help='JSON')
    command.set_defaults(form='table')


def _import(commands: Commands) -> None:
    command = _command(
        commands, 'import', actions.import_files, 'put the molecules of files into a store, which is made if need be',
        'STORE rfam.sto.gz trna.dbn', '''
All or nothing: a kill or an error leaves the store as it was. A molecule that cannot be taken
is a reject, told in the file of rejects.''')
    command.add_argument('files', metavar='FILE', nargs='+',
                         help='dot-bracket, Stockholm, CT, BPSEQ or FASTA with structure, gzipped or not; - is '
                              'standard input')
    command.add_argument('--format', choices=formats.FORMATS, help='the format of all files (else each shows its own)')
    command.add_argument('--lower', action='store_true', help='take small letters as capitals (else they are refused)')
    command.add_argument('--replace', action='store_true',
                         help='a molecule takes the place of one of the same name (else it is a reject)')
    command.add_argument('--rejects', metavar='FILE',
                         help='where to tell of rejects: file, line, name, reason (else STORE/rejects.tsv)')


def _search(commands: Commands) -> None:
    command = _command(
        commands, 'search', actions.search, 'list the molecules that motifs embed in, with their tightest windows',
        f"STORE --motif '{MOTIF}' --slack 5", '''
Columns: name of the molecule and of the motif; from and to, the ends of the window, counted from 1;
slack, the length of the window less that of the motif; the piece of the molecule in the window, and
its structure.''')
    _motifs(command)
    command.add_argument('--slack', metavar='N', type=actions.natural, help='only hits whose slack is at most N')
    _forms(command)


def _show(commands: Commands) -> None:
    command = _command(commands, 'show', actions.show, 'show where a motif lies in a molecule, in text or a picture',
                       f"STORE NAME --motif '{MOTIF}' -o hit.svg")
    command.add_argument('name', metavar='NAME', help='the name of the molecule')
    _motifs(command)
    command.add_argument('-o', '--output', metavar='FILE',
                         help='write a picture (SVG) to this file; - is standard output')
    command.add_argument('--drawing', choices=('arcs', 'loops'), default='arcs',
                         help='the kind of picture (arcs if not given)')


def _window(commands: Commands) -> None:
    command = _command(commands, 'window', actions.window, 'print the tightest windows of molecules that carry motifs',
                       f"STORE NAME --motif '{MOTIF}'", '\nThe columns are those of search.')
    command.add_argument('names', metavar='NAME', nargs='+', help='the name of a molecule')
    _motifs(command)
    _forms(command)


def _list(commands: Commands) -> None:
    command = _command(commands, 'list', actions.list_molecules, 'list all molecules with length, arcs and depth',
                       'STORE --sort depth --reverse')
    command.add_argument('--sort', choices=('name', 'length', 'arcs', 'depth'),
                         help='what sorts the lines (else the place in the store)')
    command.add_argument('--reverse', action='store_true', help='falling, not rising')
    _forms(command)


def _get(commands: Commands) -> None:
    command = _command(commands, 'get', actions.get, 'write molecules as text', 'STORE NAME -o one.dbn')
    command.add_argument('names', metavar='NAME', nargs='*', help='the name of a molecule (none: all of the store)')
    command.add_argument('-o', '--output', metavar='FILE', default='-', help='where to write (else standard output)')
    command.add_argument('--format', choices=formats.WRITABLE, default='dotbracket',
                         help='the format of the text (dotbracket if not given)')


def _rm(commands: Commands) -> None:
    command = _command(commands, 'rm', actions.remove, 'take molecules out of a store', 'STORE NAME',
                       '\nWhere one of the names is not held, none is taken out.')
    command.add_argument('names', metavar='NAME', nargs='+', help='the name of a molecule')


def _verify(commands: Commands) -> None:
    _command(commands, 'verify', actions.verify, 'ask the library whether all blocks of a store are sound', 'STORE',
             '''
Each block that is not sound, or that the table of names does not agree with, is told on a line, and
then the exit status is 2.''')


def _stats(commands: Commands) -> None:
    command = _command(commands, 'stats', actions.stats, 'print numbers about a store', 'STORE --json')
    _forms(command)
