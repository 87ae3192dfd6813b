"""The command: what it prints and its exit statuses, by a small store.

LAKHIDO_LIBRARY names the shared library.
"""
from __future__ import annotations

import contextlib
import gzip
import io
import json
import os
import subprocess
import sys
import unittest
from unittest import mock
from xml.etree import ElementTree

from samples import SOURCE, InFolder

from lakhido import __version__, load
from lakhido.command import main
from lakhido.command.progress import Progress
from lakhido.store import open_store

TRNA = 'tRNA-Phe'
MOLECULES = '''\
>tRNA-Phe
GCGGAUUUAGCUCAGUUGGGAGAGCGCCAGACUGAAGAUCUGGAGGUCCUGUGUUCGAUCCACAGAAUUCGCACCA
(((((((..((((........)))).((((.........)))).....(((((.......))))))))))))....
>bulge
AAGUAGUUACGACACUU
..((.(......)))..
>unbonded
AGUGUUCACACA
............
>no A
GGUGUUCGCCACC
((((.....))))
'''
HAIRPIN = 'GUGUUCACAC (((....)))'
TABLE = '''\
#name    motif   from to slack piece         structure
#------- ------- ---- -- ----- ------------- -------------
tRNA-Phe motif-1   51 63     3 GUGUUCGAUCCAC (((.......)))
bulge    motif-1    3 15     3 GUAGUUACGACAC ((.(......)))
#
# lakhido VERSION: 1 motif, 4 molecules, 2 hits; store STORE, generation 1
# [ok]
'''
COMMANDS = 'import', 'search', 'show', 'window', 'list', 'get', 'rm', 'verify', 'stats'


class Commands(InFolder):
    def setUp(self) -> None:
        super().setUp()
        self.store = str(self.path)
        self.file = self.folder / 'molecules.dbn'
        self.file.write_text(MOLECULES)

    def ran(self, *words: object) -> tuple[int, str, str]:
        """Exit status, output and error output of the command in this process."""
        out, err = io.StringIO(), io.StringIO()
        with contextlib.redirect_stdout(out), contextlib.redirect_stderr(err):
            try:
                status = main([str(word) for word in words])
            except SystemExit as end:
                status = end.code
        return status, out.getvalue(), err.getvalue()

    def alone(self, *words: object, **settings: object) -> subprocess.CompletedProcess:
        """The command as a process of its own."""
        path = os.pathsep.join([str(SOURCE), os.environ.get('PYTHONPATH', '')])
        settings = {'stdout': subprocess.PIPE, 'stderr': subprocess.PIPE} | settings
        return subprocess.run([sys.executable, '-m', 'lakhido.command', *map(str, words)], text=True,
                              env=os.environ | {'PYTHONPATH': path}, **settings)

    def filled(self) -> None:
        self.assertEqual(self.ran('import', self.store, self.file),
                         (0, '4 molecules imported, 0 replaced, 4 in the store\n', ''))


class AsProcesses(Commands):
    def test_statuses_and_streams(self) -> None:
        done = self.alone('import', self.store, '-', input=MOLECULES)
        self.assertEqual((done.returncode, done.stdout, done.stderr),
                         (0, '4 molecules imported, 0 replaced, 4 in the store\n', ''))
        done = self.alone('search', self.store, '--motif', HAIRPIN)
        self.assertEqual((done.returncode, done.stderr), (0, ''))
        self.assertEqual(done.stdout, TABLE.replace('STORE', self.store).replace('VERSION', __version__))
        done = self.alone('search', self.store, '--motif', 'AAAAAAAAA (.......)')
        self.assertEqual((done.returncode, done.stderr), (1, ''))
        done = self.alone('search', self.store, '--motif', 'AxA ...')
        self.assertEqual((done.returncode, done.stdout), (2, ''))
        self.assertEqual(done.stderr, "lakhido: --motif 'AxA ...': base 2, `x`, is not A, C, G, T or U\n")
        done = self.alone('search', self.folder / 'none', '--motif', HAIRPIN)
        self.assertEqual((done.returncode, done.stdout), (3, ''))
        self.assertEqual(done.stderr, f'lakhido: {self.folder}/none: there is no store here (store.json is missing)\n')

    def test_output_that_cannot_be_written(self) -> None:
        self.filled()
        with open('/dev/full', 'w') as full:
            done = self.alone('list', self.store, stdout=full)
        self.assertEqual((done.returncode, done.stderr), (3, 'lakhido: standard output: No space left on device\n'))
        self.assertEqual(self.ran('get', self.store, '-o', '/dev/full'),
                         (3, '', 'lakhido: /dev/full: No space left on device\n'))

    def test_without_a_library(self) -> None:
        with mock.patch.dict(os.environ, {'LAKHIDO_LIBRARY': str(self.folder / 'none.so')}):
            status, out, err = self.ran('list', self.store)
        self.assertEqual((status, out, err.count('\n')), (3, '', 1))


class Imports(Commands):
    def test_rejects_are_told(self) -> None:
        self.filled()
        more = self.folder / 'more.dbn'
        more.write_text(f'>bulge\nGAC\n(.)\n>long\n{"A" * 161}\n{"." * 161}\n'
                        '>small\ngac\n(.)\n>knot\nGACGAC\n(.[).]\n')
        status, out, err = self.ran('import', self.store, more)
        self.assertEqual((status, out), (0, '1 molecule imported, 0 replaced, 5 in the store\n'))
        self.assertEqual(err, f'lakhido: 3 rejected: {self.path}/rejects.tsv\n'
                              f'lakhido: 1 with a note: {self.path}/notes.tsv\n')
        rows = [line.split('\t') for line in (self.path / 'rejects.tsv').read_text().splitlines()]
        self.assertEqual(rows[0], ['file', 'line', 'name', 'reason'])
        self.assertEqual([row[:3] for row in rows[1:]],
                         [[str(more), '1', 'bulge'], [str(more), '4', 'long'], [str(more), '8', 'small']])
        self.assertEqual([row[3] for row in rows[1:3]],
                         ['the store has a molecule of this name (--replace takes the new one)',
                          'the molecule has more than 160 bases'])
        self.assertRegex(rows[3][3], r'\(column 1\)$')
        notes = (self.path / 'notes.tsv').read_text()
        self.assertRegex(notes, r'\A' + f'file\tline\tname\tnote\n{more}\t10\tknot\t.*pseudoknot.*\n' + r'\Z')

    def test_replace_and_lower(self) -> None:
        self.filled()
        more = self.folder / 'more.dbn'
        more.write_text('>bulge\ngac\n(.)\n')
        rejects = self.folder / 'rejects'
        status, out, err = self.ran('import', self.store, more, '--rejects', rejects)
        self.assertEqual((status, out), (1, '0 molecules imported, 0 replaced, 4 in the store\n'))
        self.assertEqual(len(rejects.read_text().splitlines()), 2)
        self.assertEqual(self.ran('import', self.store, more, '--replace', '--lower'),
                         (0, '1 molecule imported, 1 replaced, 4 in the store\n', ''))
        self.assertEqual(self.ran('get', self.store, 'bulge')[1], '>bulge\nGAC\n(.)\n')

    def test_all_or_nothing(self) -> None:
        self.filled()
        more, bad = self.folder / 'more.dbn', self.folder / 'bad'
        more.write_text('>new\nGAC\n(.)\n')
        bad.write_bytes(b'\0\1\2')
        before = sorted(os.listdir(self.path))
        status, out, err = self.ran('import', self.store, more, bad)
        self.assertEqual((status, out, err.count('\n')), (2, '', 1))
        self.assertEqual(self.ran('import', self.store, more, self.folder / 'none')[0], 3)
        self.assertEqual(sorted(os.listdir(self.path)), before)
        self.assertEqual(self.ran('get', self.store, 'new')[0], 1)
        self.assertEqual(self.ran('import', self.folder / 'other', self.folder / 'none')[0], 3)
        self.assertFalse((self.folder / 'other').exists())

    def test_packed_files(self) -> None:
        packed = self.folder / 'molecules.gz'
        packed.write_bytes(gzip.compress(MOLECULES.encode()))
        self.assertEqual(self.ran('import', self.store, packed, '--format', 'dotbracket')[0], 0)
        self.assertEqual(self.ran('get', self.store)[1], MOLECULES)

    def test_another_writer(self) -> None:
        self.filled()
        with open_store(self.store, load(), write=True):
            for words in (('import', self.store, self.file), ('rm', self.store, TRNA)):
                self.assertEqual(self.ran(*words),
                                 (3, '', f'lakhido: {self.store}: another process writes this store\n'))
            self.assertEqual(self.ran('search', self.store, '--motif', HAIRPIN)[0], 0)


class Searches(Commands):
    def setUp(self) -> None:
        super().setUp()
        self.filled()

    def test_tsv(self) -> None:
        lines = ['name\tmotif\tfrom\tto\tslack\tpiece\tstructure',
                 'tRNA-Phe\tmotif-1\t51\t63\t3\tGUGUUCGAUCCAC\t(((.......)))',
                 'bulge\tmotif-1\t3\t15\t3\tGUAGUUACGACAC\t((.(......)))']
        self.assertEqual(self.ran('search', self.store, '--motif', HAIRPIN, '--tsv'), (0, '\n'.join(lines) + '\n', ''))
        self.assertEqual(self.ran('window', self.store, 'bulge', 'no A', '--motif', HAIRPIN, '--tsv'),
                         (0, '\n'.join(lines[::2]) + '\n', ''))
        self.assertEqual(self.ran('search', self.store, '--motif', HAIRPIN, '--slack', 2, '--tsv'),
                         (1, lines[0] + '\n', ''))
        self.assertEqual(self.ran('window', self.store, 'no A', '--motif', HAIRPIN, '--tsv'), (1, lines[0] + '\n', ''))

    def test_json(self) -> None:
        status, out, _ = self.ran('search', self.store, '--motif', HAIRPIN, '--motif', 'GC ()', '--json')
        value = json.loads(out)
        self.assertEqual((status, value['generation'], value['molecules']), (0, 1, 4))
        self.assertEqual(value['motifs'][0], {'name': 'motif-1', 'bases': 'GUGUUCACAC', 'structure': '(((....)))'})
        self.assertEqual(value['hits'][0], {
            'name': TRNA, 'motif': 'motif-1', 'from': 51, 'to': 63, 'slack': 3, 'piece': 'GUGUUCGAUCCAC',
            'structure': '(((.......)))', 'places': [51, 52, 53, 54, 55, 56, 58, 61, 62, 63]})
        self.assertEqual([hit['name'] for hit in value['hits'] if hit['motif'] == 'motif-2'], [TRNA, 'bulge', 'no A'])

    def test_several_motifs(self) -> None:
        file = self.folder / 'motifs.dbn'
        file.write_text(''.join(f'>m{i}\n{"GUG" * i}A\n{"..." * i}.\n' for i in range(1, 20)))
        status, out, _ = self.ran('search', self.store, '--motif', '', '--motif-file', file, '--tsv')
        rows = [line.split('\t') for line in out.splitlines()[1:]]
        self.assertEqual(rows[0], [TRNA, 'motif-1', '1', '0', '0', '-', '-'])
        counts = {f'm{i}': sum(row[1] == f'm{i}' for row in rows) for i in range(1, 20)}
        for i in range(1, 20):
            single = self.ran('search', self.store, '--motif', f'{"GUG" * i}A {"..." * i}.', '--tsv')[1]
            self.assertEqual(single.count('\n') - 1, counts[f'm{i}'])
        self.assertEqual(status, 0)
        self.assertGreater(counts['m1'], counts['m5'])

    def test_wrong_motifs(self) -> None:
        bad = self.folder / 'bad.dbn'
        bad.write_text('>m\nGAC\n(..\n')
        for words in (['--motif', 'GAC'], ['--motif', 'GAC (.'], ['--motif', 'GAC (..'], ['--motif', 'gac (.)'], [],
                      ['--motif', f'{"A" * 121} {"." * 121}'], ['--motif-file', bad],
                      ['--motif', HAIRPIN, '--slack', '-1']):
            status, out, err = self.ran('search', self.store, *words)
            self.assertEqual((status, out), (2, ''), words)
            self.assertTrue(err)
        self.assertEqual(self.ran('search', self.store, '--motif-file', self.folder / 'none')[0], 3)

    def test_show(self) -> None:
        status, out, _ = self.ran('show', self.store, 'bulge', '--motif', HAIRPIN)
        self.assertEqual((status, out), (0, '>bulge\nAAGUAGUUACGACACUU\n..((.(......)))..\n--GU-GUU-C-ACAC--\n'
                                            'motif-1 from 3 to 15, slack 3\n'))
        for drawing in ('arcs', 'loops'):
            self.assertEqual(self.ran('show', self.store, TRNA, '--motif', HAIRPIN, '-o', self.folder / 'hit.svg',
                                      '--drawing', drawing), (0, '', ''))
            self.assertTrue(ElementTree.parse(self.folder / 'hit.svg').getroot().tag.endswith('svg'))
        status, out, err = self.ran('show', self.store, 'no A', '--motif', HAIRPIN)
        self.assertEqual((status, out), (1, ''))
        self.assertEqual(err, 'no A: motif-1 does not embed; of its 10 bases the first 0 do\n')
        self.assertEqual(self.ran('show', self.store, 'none', '--motif', HAIRPIN),
                         (1, '', 'lakhido: none: no molecule of this name\n'))
        self.assertEqual(self.ran('show', self.store, TRNA, '--motif', HAIRPIN, '--motif', HAIRPIN)[0], 2)


class Others(Commands):
    def setUp(self) -> None:
        super().setUp()
        self.filled()

    def test_list(self) -> None:
        rows = {'tRNA-Phe': '76\t20\t12', 'bulge': '17\t3\t3', 'unbonded': '12\t0\t0', 'no A': '13\t4\t4'}
        for words, order in (((), ['tRNA-Phe', 'bulge', 'unbonded', 'no A']),
                             (('--reverse',), ['no A', 'unbonded', 'bulge', 'tRNA-Phe']),
                             (('--sort', 'length'), ['unbonded', 'no A', 'bulge', 'tRNA-Phe']),
                             (('--sort', 'depth', '--reverse'), ['tRNA-Phe', 'no A', 'bulge', 'unbonded']),
                             (('--sort', 'arcs'), ['unbonded', 'bulge', 'no A', 'tRNA-Phe'])):
            expected = 'name\tlength\tarcs\tdepth\n' + ''.join(f'{name}\t{rows[name]}\n' for name in order)
            self.assertEqual(self.ran('list', self.store, '--tsv', *words), (0, expected, ''))
        self.assertEqual(json.loads(self.ran('list', self.store, '--json')[1])[1],
                         {'name': 'bulge', 'length': 17, 'arcs': 3, 'depth': 3})
        self.assertEqual(self.ran('list', self.store)[1].splitlines()[0], '#name    length arcs depth')

    def test_get_and_rm(self) -> None:
        self.assertEqual(self.ran('get', self.store, 'no A', '--format', 'bpseq')[1].splitlines()[-1], '13 C 1')
        self.assertEqual(self.ran('get', self.store, '-o', self.folder / 'all.dbn'), (0, '', ''))
        self.assertEqual((self.folder / 'all.dbn').read_text(), MOLECULES)
        self.assertEqual(self.ran('rm', self.store, 'bulge', 'none')[0], 1)
        self.assertEqual(self.ran('rm', self.store, 'bulge', TRNA, 'bulge'),
                         (0, '2 molecules removed, 2 in the store\n', ''))
        self.assertEqual(self.ran('get', self.store)[1].count('>'), 2)
        self.assertEqual(self.ran('get', self.store, TRNA), (1, '', f'lakhido: {TRNA}: no molecule of this name\n'))
        self.assertEqual(self.ran('search', self.store, '--motif', HAIRPIN)[0], 1)
        self.assertEqual(self.ran('rm', self.store, 'unbonded', 'no A')[0], 0)
        self.assertEqual(self.ran('list', self.store, '--tsv'), (1, 'name\tlength\tarcs\tdepth\n', ''))
        self.assertEqual(self.ran('get', self.store), (1, '', ''))

    def test_verify(self) -> None:
        self.assertEqual(self.ran('verify', self.store), (0, '4 molecules in 1 catalog: all blocks are sound\n', ''))
        with open(self.path / 'catalog-0000.g1.bin', 'r+b') as file:
            file.seek(512 + 511)
            file.write(b'\7')
        self.assertEqual(self.ran('verify', self.store),
                         (2, 'catalog-0000.g1.bin: block 1 (bulge): the block is unsound\n',
                          f'lakhido: {self.store}: 1 block not in order\n'))
        status, out, err = self.ran('search', self.store, '--motif', HAIRPIN)
        self.assertEqual((status, out), (2, ''))
        self.assertEqual(err, f'lakhido: {self.store}/catalog-0000.g1.bin: block 1 (bulge): the block is unsound\n')

    def test_stats(self) -> None:
        self.ran('search', self.store, '--motif', HAIRPIN)
        value = json.loads(self.ran('stats', self.store, '--json')[1])
        self.assertEqual(value, {
            'generation': 1, 'molecules': 4, 'catalogs': 1, 'free places': 508, 'bases': 118, 'shortest': 12,
            'longest': 76, 'arcs': 27, 'deepest': 12, 'catalogs with a cache': 1})
        self.assertIn('deepest                12\n', self.ran('stats', self.store)[1])
        self.assertIn('deepest\t12\n', self.ran('stats', self.store, '--tsv')[1])

    def test_help(self) -> None:
        self.assertEqual(self.ran('--version'), (0, f'lakhido {__version__}\n', ''))
        status, out, _ = self.ran('--help')
        self.assertEqual(status, 0)
        for name in COMMANDS:
            self.assertIn(f'    {name} ', out)
            status, text, _ = self.ran(name, '--help')
            self.assertEqual(status, 0)
            self.assertRegex(text, rf'Example:\n  lakhido {name} STORE')
            self.assertIn('Exit status: 0 found', text)

    def test_wrong_use(self) -> None:
        for words in ((), ('nothing',), ('list',), ('list', self.store, '--sort', 'x'),
                      ('search', self.store, '--tsv', '--json')):
            status, out, err = self.ran(*words)
            self.assertEqual((status, out), (2, ''))
            self.assertIn('usage:', err)

    def test_ends_that_nobody_expects(self) -> None:
        for error, status, said in ((KeyboardInterrupt, 130, 'interrupted'), (MemoryError, 3, 'MemoryError'),
                                    (RuntimeError('odd'), 3, 'RuntimeError: odd')):
            with mock.patch('lakhido.store.read_table', side_effect=error):
                self.assertEqual(self.ran('list', self.store), (status, '', f'lakhido: {said}\n'))


class Terminal(io.StringIO):
    def isatty(self) -> bool:
        return True


class ProgressLines(unittest.TestCase):
    def test_only_after_a_second_and_on_a_terminal(self) -> None:
        times = iter([0.0, 0.5, 1.1, 1.1, 1.2, 1.4, 1.4])
        stream = Terminal()
        with Progress('read:', stream, lambda: next(times)) as progress:
            for done in (1, 2, 3, 4):
                progress(done, 10)
        self.assertEqual(stream.getvalue(), '\rread: 2 of 10\rread: 4 of 10\r             \r')
        silent = io.StringIO()
        with Progress('read:', silent, lambda: 0.0 if not silent.tell() else 9.0) as progress:
            progress(5)
        self.assertEqual(silent.getvalue(), '')


if __name__ == '__main__':
    unittest.main()
