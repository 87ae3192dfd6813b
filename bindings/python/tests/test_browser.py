"""Pictures as a browser shows them, against stored images. Skipped where no Chromium is found.

With another font some pixels of a letter move, so that what is compared is the mean colour of small squares. With
WRITE_PICTURES=1 in the environment the images are stored anew; they are then to be looked at.
"""
import os
import pathlib
import shutil
import struct
import subprocess
import tempfile
import unittest
import zlib

from lakhido.pictures import arc_diagram, loop_drawing
from lakhido.strand import Strand

PICTURES = pathlib.Path(__file__).parent / 'pictures'
CHROMIUM = shutil.which('chromium') or shutil.which('chromium-browser') or shutil.which('google-chrome')
FLAGS = ('--headless', '--no-sandbox', '--disable-gpu', '--hide-scrollbars', '--force-device-scale-factor=1',
         '--force-color-profile=srgb', '--virtual-time-budget=1000')
WINDOW = 640, 480  # the size of an image; the pictures below are smaller
SQUARE = 16  # side of the squares whose mean colours are compared
FAR = 30  # two squares differ by more than this in some colour, of 255: what they show is not the same

STRAND = Strand.of('GGCGUUUUCGCAAAGGCAUGAAAGCC', '(((.....)))...(((.....))).')
MARKS = {'name': 'two hairpins', 'places': [0, 1, 2, 4, 8, 9, 10], 'window': (0, 11)}
EXAMPLES = {'hairpins-arcs.png': arc_diagram, 'hairpins-loops.png': loop_drawing}


class Image:
    """A PNG image of 8-bit colours without a palette and without interlacing: its size, and its rows as bytes."""

    def __init__(self, data):
        chunks, at = {}, 8
        while at < len(data):
            size, kind = struct.unpack_from('>I4s', data, at)
            chunks[kind] = chunks.get(kind, b'') + data[at + 8:at + 8 + size]
            at += size + 12
        self.width, self.height, depth, colours, _, _, interlaced = struct.unpack('>IIBBBBB', chunks[b'IHDR'])
        if depth != 8 or colours not in (2, 6) or interlaced:
            raise ValueError('this is not an image that the reader takes')
        self.channels = 3 if colours == 2 else 4
        self.rows = list(self.unfiltered(zlib.decompress(chunks[b'IDAT'])))

    def unfiltered(self, raw):
        """A row is stored as differences from what is left of it or above it, by the filter in its first byte."""
        size, step = self.width * self.channels, self.channels
        above = bytearray(size)
        for start in range(0, len(raw), size + 1):
            kind, row = raw[start], bytearray(raw[start + 1:start + 1 + size])
            if kind == 2:
                row = bytearray((value + up) & 255 for value, up in zip(row, above))
            elif kind:
                for i in range(size):
                    left, corner = (row[i - step], above[i - step]) if i >= step else (0, 0)
                    row[i] = (row[i] + predicted(kind, left, above[i], corner)) & 255
            yield row
            above = row

    def squares(self):
        """The mean red, green and blue of each square, by rows of squares."""
        for top in range(0, self.height, SQUARE):
            rows = self.rows[top:top + SQUARE]
            for left in range(0, self.width, SQUARE):
                end = min(left + SQUARE, self.width)
                span = [row[left * self.channels:end * self.channels] for row in rows]
                size = len(rows) * (end - left)
                yield [sum(sum(part[colour::self.channels]) for part in span) / size for colour in range(3)]


def predicted(kind, left, up, corner):
    """What the filters 1, 3 and 4 of PNG expect of a byte."""
    if kind == 1:
        return left
    if kind == 3:
        return (left + up) // 2
    straight = left + up - corner
    return min((left, up, corner), key=lambda value: abs(straight - value))


def distance(one, other):
    """The largest difference of a colour in two squares of one place."""
    return max(abs(a - b) for squares in zip(one.squares(), other.squares(), strict=True) for a, b in zip(*squares))


def shown(svg):
    """The image of a picture, as Chromium shows it."""
    with tempfile.TemporaryDirectory() as folder:
        source, target = pathlib.Path(folder, 'picture.svg'), pathlib.Path(folder, 'picture.png')
        source.write_text(svg, encoding='utf-8')
        subprocess.run([CHROMIUM, *FLAGS, f'--user-data-dir={folder}/user', '--window-size=%d,%d' % WINDOW,
                        f'--screenshot={target}', source.as_uri()], check=True, capture_output=True, timeout=120)
        return target.read_bytes()


class Reader(unittest.TestCase):
    def test_each_filter(self):
        """Rows of two pixels by the filters 0 to 4, the values worked out by hand."""
        lines = [(0, (10, 20, 30, 40, 50, 60)), (1, (1, 2, 3, 4, 5, 6)), (2, (1, 1, 1, 1, 1, 1)),
                 (3, (10, 10, 10, 10, 10, 10)), (4, (255, 0, 1, 2, 3, 4))]
        raw = b''.join(bytes([kind, *values]) for kind, values in lines)
        image = Image(png(2, 5, raw))
        self.assertEqual([tuple(row) for row in image.rows], [
            (10, 20, 30, 40, 50, 60), (1, 2, 3, 5, 7, 9), (2, 3, 4, 6, 8, 10), (11, 11, 12, 18, 19, 21),
            (10, 11, 13, 20, 22, 25)])

    def test_squares(self):
        image = Image(png(1, 2, bytes([0, 10, 20, 30, 0, 30, 40, 50])))
        self.assertEqual(list(image.squares()), [[20.0, 30.0, 40.0]])


def png(width, height, raw):
    """An image of 8-bit red, green and blue. The reader does not read check sums."""
    head = struct.pack('>IIBBBBB', width, height, 8, 2, 0, 0, 0)
    chunks = (b'IHDR', head), (b'IDAT', zlib.compress(raw)), (b'IEND', b'')
    parts = (struct.pack('>I', len(data)) + kind + data + bytes(4) for kind, data in chunks)
    return b'\x89PNG\r\n\x1a\n' + b''.join(parts)


@unittest.skipUnless(CHROMIUM, 'Chromium is not installed')
class Browser(unittest.TestCase):
    def test_pictures_are_those_stored(self):
        for stored, draw in EXAMPLES.items():
            with self.subTest(stored=stored):
                found = shown(draw(STRAND, **MARKS))
                if os.environ.get('WRITE_PICTURES'):
                    (PICTURES / stored).write_bytes(found)
                image, wanted = Image(found), Image((PICTURES / stored).read_bytes())
                self.assertEqual((image.width, image.height), WINDOW)
                self.assertLess(distance(image, wanted), FAR)

    def test_a_missing_part_is_seen(self):
        """Other pictures are told apart from those stored: one arc less, one place less, no window, no name."""
        less = Strand.of(STRAND.bases.decode(), '((.......))' + STRAND.structure[11:])
        for stored, draw in EXAMPLES.items():
            wanted = Image((PICTURES / stored).read_bytes())
            others = ((less, MARKS), (STRAND, MARKS | {'places': MARKS['places'][1:]}),
                      (STRAND, MARKS | {'window': None}), (STRAND, MARKS | {'name': ''}))
            for strand, marks in others:
                with self.subTest(stored=stored, structure=strand.structure, marks=marks):
                    self.assertGreater(distance(Image(shown(draw(strand, **marks))), wanted), FAR)


if __name__ == '__main__':
    unittest.main()
