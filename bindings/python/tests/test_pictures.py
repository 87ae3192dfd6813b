"""Pictures: what they show, the geometry of loop drawings, and the text of two examples."""
import math
import pathlib
import random
import unittest
import xml.etree.ElementTree as ET
from array import array

from lakhido.pictures import LETTER_DROP, UNIT, arc_diagram, loop_drawing
from lakhido.strand import Strand

PICTURES = pathlib.Path(__file__).parent / 'pictures'
TRNA = Strand.of('GCGGAUUUAGCUCAGUUGGGAGAGCGCCAGACUGAAGAUCUGGAGGUCCUGUGUUCGAUCCACAGAAUUCGCACCA',
                 '(((((((..((((........)))).((((.........)))).....(((((.......))))))))))))....')
HAIRPIN = {'name': 'yeast tRNA-Phe, cloverleaf', 'window': (50, 13),
           'places': [50, 51, 52, 53, 54, 55, 57, 60, 61, 62]}
DRAWINGS = (arc_diagram, loop_drawing)
EXAMPLES = {'trna-arcs.svg': arc_diagram, 'trna-loops.svg': loop_drawing}


def of_class(root, kind):
    return [element for element in root.iter() if kind in element.get('class', '').split()]


def random_strand(choice, size):
    """A nested fold: each base opens an arc, closes the last open one or has none; what stays open has none."""
    mates, begun = array('H', range(size)), []
    for i in range(size):
        kind = choice.random()
        if kind < 0.4:
            begun.append(i)
        elif kind < 0.75 and begun:
            mate = begun.pop()
            mates[i], mates[mate] = mate, i
    return Strand(bytes(choice.choices(b'ACGU', k=size)), mates)


def fold(structure):
    return Strand.of('A' * len(structure), structure)


FOLDS = [random_strand(random.Random(seed), 1 + seed * 200 // 40) for seed in range(40)] + [
    fold(text) for text in (
        '', '.', '..', '()', '(.)', '()()', '(())', '(()())', '.()', '().', '.' * 200, '(' * 100 + ')' * 100,
        '()' * 100, '(' + '()' * 99 + ')', '(' + '.' * 198 + ')', '(' * 50 + '()' * 50 + ')' * 50)]


class Shown(unittest.TestCase):
    def test_each_base_and_each_arc_stand_once(self):
        for strand in FOLDS:
            arcs = strand.structure.count('(')
            for draw in DRAWINGS:
                with self.subTest(draw=draw.__name__, structure=strand.structure):
                    root = ET.fromstring(draw(strand))
                    bases = of_class(root, 'base')
                    self.assertEqual(len(bases), len(strand.bases))
                    self.assertEqual(len(of_class(root, 'arc')), arcs)
                    if draw is loop_drawing or len(strand.bases) <= 100:
                        self.assertEqual(''.join(base.text for base in bases).encode(), strand.bases)
                    self.assertFalse(of_class(root, 'place') + of_class(root, 'window') + of_class(root, 'embedded'))

    def test_embedding_and_window_are_marked(self):
        for draw in DRAWINGS:
            root = ET.fromstring(draw(TRNA, **HAIRPIN))
            at = [(base.get('x'), float(base.get('y')) - LETTER_DROP) for base in of_class(root, 'base')]
            marked = [(place.get('cx'), float(place.get('cy'))) for place in of_class(root, 'place')]
            for found, i in zip(marked, HAIRPIN['places'], strict=True):
                self.assertEqual(found[0], at[i][0])
                self.assertAlmostEqual(found[1], at[i][1], delta=0.011)
            self.assertEqual(len(of_class(root, 'embedded')), 3)
            self.assertEqual(len(of_class(root, 'arc')), 20)
            self.assertEqual(len(of_class(root, 'window')), 1)
            legend, = of_class(root, 'legend')
            self.assertEqual(legend.text, 'embedding of 10 bases, window from 51 to 63, slack 3')

    def test_legend(self):
        for marks, legend in (({}, '9 bases, 1 arc'), ({'places': []}, 'embedding of 0 bases'),
                              ({'places': [4], 'window': (4, 1)}, 'embedding of 1 base, window from 5 to 5, slack 0'),
                              ({'places': [], 'window': (3, 0)}, 'embedding of 0 bases, window of no bases, slack 0'),
                              ({'places': iter([0, 8])}, 'embedding of 2 bases'),
                              ({'window': (0, 9)}, 'window from 1 to 9')):
            found, = of_class(ET.fromstring(arc_diagram(fold('(.......)'), **marks)), 'legend')
            self.assertEqual(found.text, legend)

    def test_positions_count_from_1(self):
        for draw in DRAWINGS:
            ticks = of_class(ET.fromstring(draw(TRNA)), 'tick')
            self.assertEqual([int(tick.text) for tick in ticks], [1, 10, 20, 30, 40, 50, 60, 70])

    def test_long_molecules_have_dots(self):
        strand = Strand.of('A' * 4096, '(' * 2048 + ')' * 2048)
        root = ET.fromstring(arc_diagram(strand, places=[0, 4095], window=(0, 4096)))
        self.assertEqual({base.tag.rpartition('}')[2] for base in of_class(root, 'base')}, {'circle'})
        self.assertEqual((len(of_class(root, 'arc')), len(of_class(root, 'embedded'))), (2048, 1))

    def test_names_are_escaped(self):
        for draw in DRAWINGS:
            root = ET.fromstring(draw(fold('(.)'), name='<b>&"\'\x00\x1b\ud800 \u03b1]]>'))
            title, = (element for element in root if element.tag.endswith('}title'))
            self.assertEqual(title.text, '<b>&"\'\ufffd\ufffd\ufffd \u03b1]]>')
            self.assertEqual(root.get('role'), 'img')
            long = ET.fromstring(draw(fold('(.)'), name='x' * 500))
            self.assertEqual(len(of_class(long, 'name')[0].text), 80)


class Refused(unittest.TestCase):
    def test_wrong_marks(self):
        for marks in ({'places': [9]}, {'places': [-1]}, {'places': [2, 1]}, {'places': [1, 1]},
                      {'window': (8, 2)}, {'window': (-1, 2)}, {'window': (3, -1)}):
            for draw in DRAWINGS:
                with self.subTest(marks=marks), self.assertRaises(ValueError):
                    draw(fold('(.......)'), **marks)

    def test_wrong_mates(self):
        for mates in ([1, 2, 0], [0, 1], [0, 1, 3], [0, 0, 2]):
            for draw in DRAWINGS:
                with self.subTest(mates=mates), self.assertRaises(ValueError):
                    draw(Strand(b'AAA', array('H', mates)))

    def test_crossing_arcs_have_no_loops(self):
        """Every way to bond six bases: the drawing refuses those in which two arcs cross, and no others."""
        for mates in matchings(list(range(6))):
            arcs = [(i, j) for i, j in enumerate(mates) if i < j]
            strand = Strand(b'ACGUAC', array('H', mates))
            with self.subTest(mates=mates):
                if any(a < c < b < d for a, b in arcs for c, d in arcs):
                    self.assertRaises(ValueError, loop_drawing, strand)
                else:
                    loop_drawing(strand)

    def test_too_many_bases_for_loops(self):
        self.assertRaises(ValueError, loop_drawing, fold('.' * 201))


def matchings(left):
    """All lists of mates in which the bases of `left` have bonds with one another or none."""
    if not left:
        return [list(range(6))]
    first, *others = left
    found = matchings(others)
    for mate in others:
        for mates in matchings([i for i in others if i != mate]):
            mates[first], mates[mate] = mate, first
            found.append(mates)
    return found


class Geometry(unittest.TestCase):
    def test_neighbours_and_mates_are_a_side_apart(self):
        for strand in FOLDS:
            at = self.points(loop_drawing(strand))
            with self.subTest(structure=strand.structure):
                for here, there in zip(at, at[1:]):
                    self.assertAlmostEqual(math.dist(here, there), UNIT, delta=0.03)
                for i, mate in enumerate(strand.mates):
                    if mate != i:
                        self.assertAlmostEqual(math.dist(at[i], at[mate]), UNIT, delta=0.03)

    def test_everything_is_in_view(self):
        for strand in FOLDS:
            size = len(strand.bases)
            for draw in DRAWINGS:
                root = ET.fromstring(draw(strand, places=range(size), window=(0, size)))
                _, _, width, height = map(float, root.get('viewBox').split())
                for element in root.iter():
                    for name, most in (('x', width), ('cx', width), ('y', height), ('cy', height)):
                        value = float(element.get(name, 0))
                        self.assertTrue(math.isfinite(value) and 0 <= value <= most)

    def test_simple_folds_do_not_overlap(self):
        for structure in ('((((....))))', TRNA.structure, '..((..((...))..((....))..))...((.(...)))', '.' * 200):
            at = self.points(loop_drawing(fold(structure)))
            nearest = min(math.dist(at[i], at[j]) for i in range(len(at)) for j in range(i))
            self.assertGreater(nearest, UNIT / 2)

    def test_a_stem_hangs_from_its_open_end(self):
        at = self.points(loop_drawing(fold('((((....))))')))
        self.assertEqual(at[0][1], at[11][1])
        self.assertLess(at[0][0], at[11][0])
        self.assertEqual(sorted(y for _, y in at[:4]), [y for _, y in at[:4]])

    def test_arcs_are_half_circles_on_their_bases(self):
        root = ET.fromstring(arc_diagram(TRNA))
        x = [float(base.get('x')) for base in of_class(root, 'base')]
        pairs = [(i, mate) for i, mate in enumerate(TRNA.mates) if i < mate]
        for arc, (i, mate) in zip(of_class(root, 'arc'), pairs, strict=True):
            _, left, _, _, across, down, _, _, _, right, _ = arc.get('d').split()
            self.assertEqual((float(left), float(right)), (x[i], x[mate]))
            self.assertEqual((float(across), float(down)), ((x[mate] - x[i]) / 2,) * 2)

    @staticmethod
    def points(drawing):
        return [(float(base.get('x')), float(base.get('y'))) for base in of_class(ET.fromstring(drawing), 'base')]


class Stored(unittest.TestCase):
    def test_text_of_examples(self):
        for stored, draw in EXAMPLES.items():
            with self.subTest(stored=stored):
                self.assertEqual(draw(TRNA, **HAIRPIN), (PICTURES / stored).read_text(encoding='utf-8'))


if __name__ == '__main__':
    unittest.main()
