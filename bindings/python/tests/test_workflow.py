"""The workflow: its tables and its shards by themselves, and all of it with two jobs where Snakemake is installed."""
import os
import pathlib
import shutil
import subprocess
import sys
import tempfile
import unittest

PACKAGE = pathlib.Path(__file__).resolve().parent.parent
WORKFLOW = PACKAGE / 'workflow'
sys.path.insert(0, str(WORKFLOW))

from join_tables import TableError, join  # noqa: E402 (the workflow is no package)

HAIRPINS = ''.join(f'>molecule-{i:02d}\n{"A" * (i % 4)}GGGAAACCC\n{"." * (i % 4)}(((...)))\n' for i in (7, 3, 9, 0, 5))
OTHERS = '>none\nAAAA\n....\n>long\n' + 'A' * 161 + '\n' + '.' * 161 + '\n>molecule-03\nGC\n()\n>bad\nGXC\n(.)\n'
MOTIFS = '>hairpin\nGGAAACC\n((...))\n>bond\nGC\n()\n'


class InFolder(unittest.TestCase):
    def setUp(self):
        folder = tempfile.TemporaryDirectory()
        self.addCleanup(folder.cleanup)
        self.folder = pathlib.Path(folder.name)
        path = os.pathsep.join([str(PACKAGE / 'src'), *filter(None, [os.environ.get('PYTHONPATH')])])
        self.environment = os.environ | {'PYTHONPATH': path}

    def file(self, name, text):
        (self.folder / name).write_text(text)
        return str(self.folder / name)

    def run_here(self, *command):
        return subprocess.run(command, cwd=self.folder, env=self.environment, capture_output=True, text=True)


class Tables(InFolder):
    def test_rows_are_sorted_by_name_and_keep_their_order(self):
        texts = 'from\tname\n2\tb\n1\tb\n', '', 'from\tname\n3\ta b\n9\ta\n'
        join(self.folder / 'all', [self.file(f'table-{i}', text) for i, text in enumerate(texts)])
        self.assertEqual((self.folder / 'all').read_text(), 'from\tname\n9\ta\n3\ta b\n2\tb\n1\tb\n')

    def test_no_tables(self):
        join(self.folder / 'all', [])
        self.assertEqual((self.folder / 'all').read_text(), '')

    def test_columns_differ(self):
        tables = [self.file('a', 'name\tfrom\n'), self.file('b', 'name\tto\n')]
        self.assertRaises(TableError, join, self.folder / 'all', tables)

    def test_cut_short(self):
        self.assertRaises(TableError, join, self.folder / 'all', [self.file('a', 'name\nb\nc')])


class Shards(InFolder):
    def shard(self, text, *options):
        source = self.file('source.dbn', text)
        return self.run_here(sys.executable, WORKFLOW / 'shard.py', source, 'shards', '--rejects', 'rejects',
                             '--notes', 'notes', *options)

    def test_records_of_shards_are_those_of_the_file(self):
        done = self.shard(HAIRPINS, '--records', '2')
        self.assertEqual((done.returncode, done.stderr), (0, ''))
        parts = [path.read_text() for path in sorted((self.folder / 'shards').iterdir())]
        self.assertEqual([part.count('>') for part in parts], [2, 2, 1])
        self.assertEqual(''.join(parts), HAIRPINS)
        self.assertEqual((self.folder / 'rejects').read_text(), 'file\tline\tname\treason\n')

    def test_rejects_are_listed(self):
        self.assertEqual(self.shard(HAIRPINS + OTHERS, '--records', '100').returncode, 0)
        rows = [line.split('\t') for line in (self.folder / 'rejects').read_text().splitlines()[1:]]
        named = {name: (pathlib.Path(file).name, line) for file, line, name, _ in rows}
        self.assertEqual(named, {'long': ('source.dbn', '19'), 'molecule-03': ('source.dbn', '22'),
                                 'bad': ('source.dbn', '26')})

    def test_a_name_of_a_reject_stays_free(self):
        """As in one store, which takes the second molecule."""
        text = '>one\n' + 'A' * 161 + '\n' + '.' * 161 + '\n>one\nGC\n()\n'
        self.assertEqual(self.shard(text, '--records', '1').returncode, 0)
        self.assertEqual([path.read_text() for path in (self.folder / 'shards').iterdir()], ['>one\nGC\n()\n'])

    def test_wrong_use(self):
        self.assertEqual(self.shard(HAIRPINS, '--records', '0').returncode, 2)
        (self.folder / 'shards').mkdir()
        self.assertEqual(self.shard(HAIRPINS, '--records', '1').returncode, 3)


@unittest.skipUnless(shutil.which('snakemake'), 'Snakemake is not installed')
class Workflow(InFolder):
    def test_two_jobs_find_what_one_store_finds(self):
        """Of the two shards one has all hits, and the other none."""
        command = sys.executable, '-m', 'lakhido.command'
        source, motifs = self.file('source.dbn', HAIRPINS + OTHERS), self.file('motifs.dbn', MOTIFS)
        settings = (f'molecules={source}', f'motifs={motifs}', 'records=5', f'python={sys.executable}',
                    f'lakhido={" ".join(command)}')
        done = self.run_here('snakemake', '-s', WORKFLOW / 'Snakefile', '--directory', 'results', '--cores', '2',
                             '--config', *settings)
        self.assertEqual(done.returncode, 0, done.stderr)
        self.run_here(*command, 'import', 'store', source)
        alone = self.run_here(*command, 'search', 'store', '--motif-file', motifs, '--tsv')
        join(self.folder / 'alone.tsv', [self.file('unsorted.tsv', alone.stdout)])
        results = self.folder / 'results'
        self.assertEqual((results / 'hits.tsv').read_text(), (self.folder / 'alone.tsv').read_text())
        self.assertEqual(len((results / 'hits.tsv').read_text().splitlines()), 1 + 2 * 5)
        rejects = (results / 'rejects.tsv').read_text().splitlines()[1:]
        self.assertEqual([row.split('\t')[2] for row in rejects], ['bad', 'long', 'molecule-03'])


if __name__ == '__main__':
    unittest.main()
