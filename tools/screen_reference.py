#!/usr/bin/env python3
"""For tests alone: what the screen program must print on an input, by plain search (`lakhido_model`).

    screen_reference.py INPUT       the output for the bytes of a file
    screen_reference.py --self-test
"""
import sys

from lakhido_model import BLOCK, LONGEST_MOTIF, MOLECULE, MOST_SCREENED, MOTIF, NO_BASES, decode, embeds, encode, holds, sound


def output(data):
    """The whole output of the screen program."""
    if len(data) % BLOCK != 0 or not 2 <= len(data) // BLOCK <= 1 + MOST_SCREENED:
        return 'bad length\n'
    motif, *blocks = (data[k:k + BLOCK] for k in range(0, len(data), BLOCK))
    if not holds(MOTIF, motif):
        return 'bad motif\n'
    for d, block in enumerate(blocks):
        if not sound(MOLECULE, block):
            return 'refused 11 2 %d\n' % d
    p, pm = decode(MOTIF, motif)
    if len(p) > LONGEST_MOTIF:
        return 'refused 3 0 0\n'
    held = [d for d, block in enumerate(blocks) if any(block)]
    hits = [d for d in held if embeds(p, pm, *decode(MOLECULE, blocks[d]))]
    return 'hits %d searched %d\n' % (len(hits), len(held)) + ''.join('%d\n' % d for d in hits)


def self_test():
    one, hole = bytes(encode(MOLECULE, 'A', [0])), bytes(BLOCK)
    assert output(one + one + hole) == 'hits 1 searched 1\n0\n'
    assert output(one) == output(b'') == output(one + one[:-1]) == output(one * 66) == 'bad length\n'
    assert output(hole + one) == 'bad motif\n' and output(one + one + b'\x09' + one[1:]) == 'refused 11 2 1\n'
    assert output(one * 65) == 'hits 64 searched 64\n' + ''.join('%d\n' % d for d in range(64)) and len(output(one * 65)) == 202
    long = bytes(encode(MOLECULE, 'A' * 121, list(range(121))))
    assert output(long + one) == 'refused 3 0 0\n'
    none = bytes(encode(MOTIF, *NO_BASES))
    assert output(none + one + hole + long) == 'hits 2 searched 2\n0\n2\n' and output(none + hole) == 'hits 0 searched 0\n'
    assert output(none + one + none) == output(one + one + none) == 'refused 11 2 1\n' and output(hole + none) == 'bad motif\n'
    t, u = (bytes(encode(MOLECULE, bases, [1, 0])) for bases in ('GT', 'GU'))
    assert output(t + u + one + t) == output(u + u + one + t) == 'hits 2 searched 3\n0\n2\n'
    small = bytes(encode(MOLECULE, 'Gt', [1, 0]))
    assert output(small + t) == 'bad motif\n' and output(t + u + small) == 'refused 11 2 1\n'
    assert output(none[:-4] + bytes(4) + one) == output(b'\x02' + none[1:] + one) == 'bad motif\n'


if __name__ == '__main__':
    if sys.argv[1:] == ['--self-test']:
        self_test()
        print('self-test: ok')
    elif len(sys.argv) == 2:
        with open(sys.argv[1], 'rb') as file:
            sys.stdout.write(output(file.read()))
    else:
        sys.exit(__doc__)
