"""For tests alone: the lines that catalog_test reads, and what it must write. `tools/verify-cases` writes the files.

The answers of the cases are written here by hand, from the table of refusals and its order, for an add from 02, (i), for a motif with no bases from
02, (iii), for two spellings of a motif from 02, (vi); those of random calls come from the reference model of `Random`. `Model` must give the same
answers, and says what bytes and hits a call leaves.
"""
from catalog_lines import CACHE, LARGEST, Random, World, begin, buffers, files_of, group, hairpins, set_byte
from lakhido_model import BLOCK, CHECKSUM_AT, ENTRY, FOLDED, HITS_AT, MOLECULE, SEARCHED_AT, key
from testing_crate import folded, found, refused


def strands(call, side, too_long, none):
    """Rows 1 to 7 of a strand of a side, and each two neighbours that can apply at once. Rows 2 and 3 cannot. `none` is the answer for no bases: row 2 is for
    molecules only."""
    call('AC', '0', refused(1, side), 'row 1')
    call('A', '', refused(1, side), 'row 1, no mates')
    call('', '0', refused(1, side), 'rows 1 and 2')
    call('', '', none, 'no bases')
    call('A', '-%03d' % too_long, refused(3, side), 'row 3')
    call('X', '-%03d' % too_long, refused(3, side), 'rows 3 and 4')
    call('AXC', '012', refused(4, side, 1), 'row 4')
    call('AXC', '019', refused(4, side, 1), 'rows 4 and 5')
    call('TUtC', '0123', refused(4, side, 2), 'row 4, a small t')
    call('TuT', '210', refused(4, side, 1), 'row 4, a small u')
    call('A', '1', refused(5, side), 'row 5')
    call('A', 'z', refused(5, side), 'row 5, mate 65535')
    call('AC', '19', refused(5, side, 1), 'rows 5 and 6')
    call('AC', '11', refused(6, side), 'row 6')
    call('ACGUA', '23010', refused(6, side, 4), 'rows 6 and 7')
    call('ACGU', '2301', refused(7, side, 1), 'row 7')


def rows_of_add():
    w = World(2, 1)
    w.add(0, 'A', '0', folded(0, 0), '0 is held, 1 is not')
    w.query('A', '0', found(1, 1), 'an entry in the cache')
    buffers(lambda answer, note, **lens: w.add(1, 'GC', '10', answer, note, **lens))
    w.add(2, 'GC', '10', refused(12, 2), 'row 12')
    w.add(LARGEST, 'GC', '10', refused(12, 2), 'row 12, the largest number')
    w.add(2, 'AC', '0', refused(12, 2), 'rows 12 and 1; 12 and 13 cannot both apply')
    w.add(0, 'GC', '10', refused(13, 2), 'row 13')
    w.add(0, 'AC', '0', refused(13, 2), 'rows 13 and 1')
    strands(lambda bases, mates, answer, note: w.add(1, bases, mates, answer, note), 1, 161, refused(2, 1))
    set_byte('S', BLOCK, 9, 'block 1 is unsound')
    w.add(1, 'GC', '10', refused(11, 2, 1), 'row 11')
    w.add(0, 'GC', '10', refused(11, 2, 1), 'rows 11 and 13')
    w.add(2, 'GC', '10', refused(11, 2, 1), 'rows 11 and 12')
    w.add(1, 'GC', '10', refused(10, 2), 'rows 10 and 11', cache=513)
    set_byte('S', 30, 9, 'block 0 too')
    w.add(1, 'GC', '10', refused(11, 2, 0), 'row 11, the lowest')
    group('rows of add')


def rows_of_remove():
    w = World(2, 1)
    w.remove(0, refused(14, 2), 'row 14, zeroed')
    w.add(0, 'A', '0', folded(0, 0))
    w.query('A', '0', found(1, 1), 'an entry in the cache')
    buffers(lambda answer, note, **lens: w.remove(0, answer, note, **lens))
    w.remove(1, refused(14, 2), 'row 14')
    w.remove(2, refused(12, 2), 'rows 12 and 14')
    w.remove(LARGEST, refused(12, 2), 'row 12, the largest number')
    set_byte('S', BLOCK, 9, 'block 1 is unsound')
    w.remove(0, refused(11, 2, 1), 'row 11')
    w.remove(1, refused(11, 2, 1), 'rows 11 and 14')
    w.remove(2, refused(11, 2, 1), 'rows 11 and 12')
    w.remove(0, refused(10, 2), 'rows 10 and 11', cache=513)
    group('rows of remove')


def rows_of_query():
    w = World(2, 1)
    w.add(0, 'A', '0', folded(0, 0))
    w.query('A', '0', found(1, 1), 'an entry in the cache')
    buffers(lambda answer, note, **lens: w.query('A', '0', answer, note, **lens))
    strands(lambda bases, mates, answer, note: w.query(bases, mates, answer, note), 0, 121, found(1, 1))
    w.query('A', '0', found(1, 1), 'an entry in the cache again')
    w.query('ACGU', '2301', refused(7, 0, 1), 'rows 7 and 9', hits=1)
    w.query('GC', '10', refused(9, 2), 'row 9', hits=1)
    w.query('GC', '10', refused(9, 2), 'rows 9 and 8', hits=1, work=1471)
    w.query('GC', '10', refused(8, 2), 'row 8', work=1471)
    w.query('GC', '10', refused(8, 2), 'row 8, no entries', work=0)
    w.query('A', '0', refused(8, 2), 'row 8', work=1407)
    w.query('', '', refused(9, 2), 'row 9, no bases', hits=1)
    w.query('', '', refused(9, 2), 'rows 9 and 8, no bases', hits=1, work=1343)
    w.query('', '', refused(8, 2), 'row 8, no bases', work=1343)
    w.query('', '', refused(8, 2), 'row 8, no bases and no entries', work=0)
    w.query('A', '0', found(1, 0), 'enough work, the entry is still there', work=1408)
    w.query('GC', '10', found(0, 1), 'enough work, and more hits than blocks', work=1472, hits=5)
    set_byte('S', BLOCK, 9, 'block 1 is unsound')
    w.query('GC', '10', refused(11, 2, 1), 'row 11')
    w.query('AC', '0', refused(11, 2, 1), 'rows 11 and 1')
    w.query('', '', refused(11, 2, 1), 'row 11, no bases')
    w.query('GC', '10', refused(10, 2), 'rows 10 and 11', cache=513)
    w.query('', '', refused(10, 2), 'row 10, no bases', cache=513)
    group('rows of query')


def unsound(w, note):
    """The calls where block 1 is unsound."""
    w.query('A', '0', refused(11, 2, 1), note)
    w.query('', '', refused(11, 2, 1), note)
    w.remove(1, refused(11, 2, 1), note)
    w.add(0, 'A', '0', refused(11, 2, 1), note)


def unsound_blocks():
    """Each rule of a molecule block broken, with the right checksum."""
    for i, v, note in ((0, 2, 'kind 2'), (1, 0, 'no bases'), (1, 161, '161 bases'), (2, 1, 'byte 2'), (27, 1, 'byte 27'), (28, 88, 'no letter'),
                       (31, 116, 'a small t'), (32, 65, 'base 4'),
                       (187, 1, 'base 159'), (188, 9, 'a mate too large'), (188, 1, 'not mutual'), (196, 1, 'mate 4'), (507, 1, 'byte 507')):
        w = World(2, 1)
        w.add(1, 'ACGU', '3210', folded(2, 2))
        set_byte('U', BLOCK + i, v, note)
        unsound(w, note)
    w = World(2, 1)
    set_byte('U', BLOCK, 1, 'a molecule block of length 0')
    unsound(w, 'a molecule block of length 0')
    group('unsound molecule blocks')


def folds():
    """What add answers: the arcs and the depth of its molecule, whatever is held and asked."""
    w = World(8, 1)
    for d, (bases, mates, arcs, depth) in enumerate(FOLDED):
        w.add(d, bases, ''.join(map(str, mates)), folded(arcs, depth))
    w.add(4, 'ACGUACGUACGU', 'ba3254769810', folded(6, 3), 'a stem of two around four arcs side by side')
    w.add(5, 'ACGUACGUACGUA', '1032965874cba', folded(6, 2), 'arcs side by side, one of them around two')
    w.add(6, 'A', '=159', folded(79, 79), '79 arcs around a base')
    w.query('GC', '10', found(3, 7))
    w.add(7, 'ACGUACGUACGUA', 'cba9876543210', folded(6, 6), 'six arcs around a base')
    w.add(7, 'GAC', '210', refused(13, 2))
    w.remove(0)
    w.add(0, 'GGCC', '3210', folded(2, 2), 'another molecule under the number')
    group('arcs and depths')


def story():
    w = hairpins(1)
    w.query('GC', '10', found(2, 2))
    w.query('GC', '10', found(2, 0))
    w.query('GC', '01', found(1, 2))
    w.query('GC', '10', found(2, 2))
    w.remove(0)
    w.query('GC', '10', found(1, 0))
    group('story of document 01')


def used_again():
    w = hairpins(1)
    w.query('GC', '10', found(2, 2))
    w.remove(0)
    w.add(0, 'A', '0', folded(0, 0), 'number 0 again, no query between')
    w.query('GC', '10', found(1, 1), '0 is searched, and no hit')
    w.query('GC', '10', found(1, 0))
    w.remove(0)
    w.add(2, 'GAC', '210', refused(12, 2), 'a refused call between')
    w.add(0, 'GAC', '210', folded(1, 1))
    w.query('GC', '10', found(2, 1), '0 is searched, and a hit')
    w.remove(1)
    w.remove(0)
    w.query('GC', '10', found(0, 0), 'nothing is held')
    group('numbers used again')


def each_altered(changes, motif, slot, other, hits):
    """A byte of the entry of a motif that embeds in both hairpins: the entry is lost, and nothing else. In the other slot stands another motif, with so
    many hits."""
    for i, v, note in changes:
        w = hairpins(2)
        w.query(*other, found(hits, 2), 'the other slot')
        w.query(*motif, found(2, 2), 'slot %d' % slot)
        set_byte('S', CACHE + BLOCK * slot + i, v, note)
        w.query('GC', '11', refused(6, 0), 'a refused call leaves the altered block')
        w.query(*other, found(hits, 0), 'the other entry stays')
        w.query(*motif, found(2, 2), 'all is searched again')
        set_byte('S', CACHE + BLOCK * slot + i, v, note)
        w.remove(0)
        w.query(*motif, found(1, 1), 'remove emptied the block')
        set_byte('S', CACHE + BLOCK * slot + i, v, note)
        w.add(0, 'GAC', '210', folded(1, 1))
        w.query(*motif, found(2, 2), 'add emptied the block')


def altered():
    """A byte of each region of an entry."""
    each_altered(((0, 3, 'kind'), (1, 3, 'length'), (2, 1, 'zeros'), (19, 1, 'zeros'), (20, 67, 'first base'), (21, 71, 'last base'),
                  (22, 65, 'unused base'),
                  (139, 1, 'unused base'), (140, 0, 'first mate'), (141, 1, 'first mate'), (144, 2, 'unused mate'), (379, 1, 'unused mate'),
                  (380, 1, 'searched'), (380, 7, 'searched'),
                  (443, 1, 'searched'), (444, 0, 'hits'), (507, 1, 'hits'), (508, 0, 'checksum'), (511, 1, 'checksum')),
                 ('GC', '10'), 1, ('AGC', '021'), 0)
    group('one byte altered')
    each_altered(((0, 0, 'kind 0'), (0, 1, 'kind 1'), (0, 3, 'kind 3'), (0, 255, 'kind 255'), (1, 1, 'length'), (1, 255, 'length'), (2, 1, 'zeros'),
                  (19, 1, 'zeros'), (20, 65, 'unused base'), (139, 1, 'unused base'), (140, 1, 'unused mate'), (379, 1, 'unused mate'),
                  (380, 0, 'searched'), (380, 1, 'searched'), (380, 7, 'searched'), (443, 1, 'searched'), (444, 0, 'hits'), (444, 1, 'hits'),
                  (444, 7, 'hits'), (507, 1, 'hits'), (508, 0, 'checksum'), (509, 0, 'checksum'), (510, 1, 'checksum'), (511, 1, 'checksum')),
                 ('', ''), 0, ('GC', '10'), 2)
    group('one byte altered, no bases')


def each_unsound(changes, motif):
    """Entries of a motif that embeds in both hairpins: each breaks one rule and has the right checksum."""
    for i, v, note in changes:
        w = hairpins(1)
        w.query(*motif, found(2, 2))
        set_byte('U', CACHE + i, v, note)
        w.query(*motif, found(2, 2), 'all is searched again')


def unsound_entries():
    each_unsound(((0, 1, 'kind 1'), (1, 0, 'no bases'), (1, 121, '121 bases'), (2, 1, 'byte 2'), (19, 1, 'byte 19'), (20, 88, 'no letter'),
                  (21, 116, 'a small t'), (22, 65, 'unused base'), (139, 65, 'unused base'),
                  (140, 2, 'mate too large'), (140, 0, 'not mutual'), (144, 2, 'unused mate'), (379, 1, 'unused mate'),
                  (444, 7, 'a hit that was not searched')), ('GC', '10'))
    group('unsound entries')
    each_unsound(((0, 1, 'kind 1'), (0, 3, 'kind 3'), (1, 1, 'a base that is no letter'), (1, 121, '121 bases'), (2, 1, 'byte 2'), (19, 1, 'byte 19'),
                  (20, 65, 'unused base'), (139, 65, 'unused base'), (140, 1, 'unused mate'), (379, 1, 'unused mate'),
                  (444, 7, 'a hit that was not searched')), ('', ''))
    group('unsound entries, no bases')


def foreign():
    """Entries that are sound and yet not what these calls wrote: held numbers are trusted, others ignored."""
    w = hairpins(1)
    w.query('GC', '10', found(2, 2))
    set_byte('F', CACHE + HITS_AT, 0, 'no hits')
    w.query('GC', '10', found(0, 0), 'the entry is trusted')
    set_byte('F', CACHE + HITS_AT, 1, 'hit 0')
    w.query('GC', '10', found(1, 0), 'the entry is trusted')
    set_byte('F', CACHE + HITS_AT, 0)
    set_byte('F', CACHE + SEARCHED_AT, 2, '0 was not searched, 1 is no hit')
    w.query('GC', '10', found(1, 1), '0 is searched')
    set_byte('F', CACHE + SEARCHED_AT, 255, 'searched numbers 2 to 7')
    set_byte('F', CACHE + HITS_AT - 1, 128, 'and number 511')
    set_byte('F', CACHE + HITS_AT, 254, 'hits 1 to 7')
    w.query('GC', '10', found(1, 0), 'numbers that are not held are left out')
    set_byte('F', CACHE + SEARCHED_AT, 255)
    set_byte('F', CACHE + HITS_AT, 255)
    w.remove(1, note='takes 1 out, and leaves 2 to 7')
    w.add(1, 'A', '0', folded(0, 0))
    w.query('GC', '10', found(1, 1), '1 is searched')
    set_byte('F', CACHE + ENTRY.bases_at, 67, 'the motif CC')
    w.query('GC', '10', found(1, 2), 'another motif')
    set_byte('F', CACHE + HITS_AT, 0)
    set_byte('F', CACHE + SEARCHED_AT, 0, 'nothing was searched')
    w.query('GC', '10', found(1, 2), 'all is searched')
    group('foreign entries')


# A motif in slot 0 of 1, 2, 3 and 64 slots, as the one with no bases: their keys are 576 and 0.
SLOT_0 = 'AAUUUUU', '0123456'
assert key(SLOT_0[0], map(int, SLOT_0[1])) == 576


def no_bases(slots):
    """02, (iii): a motif with no bases embeds in every molecule, so all that are held are hits; it is kept in slot 0, as any other is in its own."""
    w = World(5, slots)
    w.query('', '', found(0, 0), 'nothing is held')
    w.add(0, 'GAC', '210', folded(1, 1))
    w.add(1, 'A', '0', folded(0, 0))
    w.add(4, 'A', '=160', folded(80, 80))
    w.query('', '', found(3, 3), 'all that are held')
    w.query('', '', found(3, 0), 'again')
    w.query('', '', found(3, 0), 'more hits than blocks, and more work', hits=9, work=2000)
    w.add(2, 'GGC', '210', folded(1, 1))
    w.query('', '', found(4, 1), 'the new one is searched')
    w.add(3, '', '', refused(2, 1), 'a molecule with no bases')
    w.query('', '0', refused(1, 0))
    w.query('A', '', refused(1, 0))
    w.query('', '', refused(8, 2), work=1343)
    w.query('', '', refused(9, 2), hits=4)
    w.query('', '', found(4, 0), 'refused calls between', work=1344)
    w.remove(1)
    w.query('', '', found(3, 0), 'one less')
    w.add(1, 'U', '0', folded(0, 0))
    w.query('', '', found(4, 1), 'the number used again')
    w.query(*SLOT_0, found(0, 4), 'another motif of slot 0')
    w.query('', '', found(4, 4), 'its entry was replaced')
    w.query(*SLOT_0, found(0, 4), 'and the other too')
    w.query('', '', found(4, 4))
    w.query('GC', '10', found(2, 4), 'slot 1 of 2 and of 3, 11 of 64')
    w.query('', '', found(4, 4 if slots == 1 else 0))
    for i, v, note in ((0, 0, 'byte 0 as in an empty block'), (0, 1, 'byte 0 of a molecule'), (0, 9, 'byte 0'), (1, 1, 'byte 1'), (SEARCHED_AT, 0, 'searched'),
                       (HITS_AT, 0, 'hits'), (CHECKSUM_AT, 0, 'checksum'), (BLOCK - 1, 1, 'checksum')):
        set_byte('S', CACHE + i, v, note)
        w.query('', '', found(4, 4), 'all is searched again')
    set_byte('S', CACHE, 2, 'no other value')
    w.query('', '', found(4, 0), 'again')
    for d, n in ((0, 3), (4, 2), (2, 1), (1, 0)):
        w.remove(d)
        w.query('', '', found(n, 0))
    group('motifs with no bases, %d slot%s' % (slots, 's' if slots > 1 else ''))


def foreign_no_bases():
    """A sound entry with length 0 that these calls did not write is taken at its word."""
    w = hairpins(2)
    set_byte('F', CACHE, 2, 'an entry with no numbers')
    w.query('', '', found(2, 2), 'nothing was searched')
    set_byte('F', CACHE + HITS_AT, 1, 'no hit 1')
    w.query('', '', found(1, 0), 'the entry is trusted')
    set_byte('F', CACHE + HITS_AT, 0)
    set_byte('F', CACHE + SEARCHED_AT, 2, '0 was not searched, 1 is no hit')
    w.query('', '', found(1, 1), '0 is searched')
    set_byte('F', CACHE + BLOCK, 2, 'in another slot')
    set_byte('F', CACHE + BLOCK + SEARCHED_AT, 3)
    w.query('', '', found(1, 0), 'slot 0 has its own')
    w.remove(1)
    w.query('', '', found(1, 0))
    w.query('GC', '10', found(1, 1), 'another motif is in its slot')
    group('foreign entries, no bases')


# Motifs that differ in spelling alone, and their keys: each T is one less.
KEYS = {'GT': 156, 'GU': 157, 'TT': 169, 'TU': 170, 'UT': 170, 'UU': 171}
assert all(key(motif, [1, 0]) == told for motif, told in KEYS.items())


def spelled(slots):
    """02, (vi): T and U match each other. Blocks keep the letter, and a motif is looked up byte by byte: GT and GU are two entries, of 1 slot in one and of
    2, 3 and 64 in two, and each searches for itself. Of 2 and 3 slots the other motifs take both."""
    w = World(6, slots)
    w.add(0, 'GAT', '210', folded(1, 1))
    w.add(1, 'GAU', '210', folded(1, 1))
    w.add(2, 'GAC', '210', folded(1, 1), 'neither')
    w.add(3, 'TTUU', '3210', folded(2, 2))
    w.add(4, 'GTGU', '0123', folded(0, 0), 'without a bond')
    again, replaced = 5 if slots == 1 else 0, 0 if slots == 64 else 4
    w.query('GT', '10', found(2, 5), 'T')
    w.query('GU', '10', found(2, 5), 'U is searched anew')
    w.query('GT', '10', found(2, again), 'T again')
    w.query('GU', '10', found(2, again), 'U again')
    w.query('GU', '10', found(2, 0))
    for motif in ('TU', 'UT', 'TT', 'UU'):
        w.query(motif, '10', found(1, 5), 'each spelling of four is another motif')
    w.query('UU', '10', found(1, 0))
    w.remove(0)
    w.query('GT', '10', found(1, replaced), 'one less')
    w.query('GU', '10', found(1, replaced))
    w.add(0, 'GCT', '210', folded(1, 1))
    w.query('GT', '10', found(2, 1 if slots > 1 else 5), 'the number used again')
    w.query('GU', '10', found(2, 1 if slots > 1 else 5))
    w.add(5, 'GtU', '012', refused(4, 1, 1), 'a small t')
    w.query('Gt', '10', refused(4, 0, 1), 'a small t')
    w.query('GU', '10', found(2, 0), 'refused calls between')
    group('T and U, %d slot%s' % (slots, 's' if slots > 1 else ''))


def spelled_entries():
    """Entries whose motif is spelled otherwise: sound, and those of another motif."""
    w = World(2, 1)
    w.add(0, 'GAT', '210', folded(1, 1))
    w.add(1, 'GAU', '210', folded(1, 1))
    w.query('GU', '10', found(2, 2))
    set_byte('F', CACHE + ENTRY.bases_at + 1, ord('T'), 'the motif GT')
    w.query('GT', '10', found(2, 0), 'the entry is that of GT')
    w.query('GU', '10', found(2, 2), 'and not that of GU')
    set_byte('F', CACHE + ENTRY.bases_at + 1, ord('T'), 'the motif GT')
    w.query('GU', '10', found(2, 2), 'another motif')
    set_byte('S', CACHE + ENTRY.bases_at + 1, ord('T'), 'without the checksum')
    w.query('GU', '10', found(2, 2), 'all is searched again')
    set_byte('U', CACHE + ENTRY.bases_at + 1, ord('u'), 'a small u')
    w.query('GU', '10', found(2, 2), 'all is searched again')
    set_byte('F', MOLECULE.bases_at + 2, ord('U'), 'molecule 0 is GAU')
    w.query('GU', '10', found(2, 0), 'a sound block of the catalog')
    w.query('GT', '10', found(2, 2))
    set_byte('U', MOLECULE.bases_at + 2, ord('t'), 'molecule 0 is GAt')
    w.query('GT', '10', refused(11, 2, 0), 'an unsound block')
    group('T and U in entries')


def long_spelled():
    """The longest, with T and with U: 160 bases in a block, 120 in a motif. The keys differ by the number of U in
    the place of T: 120 and 60, which share a slot of two, and 1, which do not."""
    w = World(2, 2)
    w.add(0, 'T', '=160', folded(80, 80))
    w.add(1, 'AU', '-160', folded(0, 0))
    w.query('U', '=120', found(1, 2))
    w.query('T', '=120', found(1, 2), 'the same slot')
    w.query('U', '=120', found(1, 2), 'it was replaced')
    w.query('AT', '-120', found(1, 2))
    w.query('AU', '-120', found(1, 2))
    w.query('TU', '=119', found(1, 2))
    w.query('UT', '=119', found(1, 2))
    w.query('TU', '-080', found(2, 2))
    w.query('T', '-121', refused(3, 0))
    w.query('t', '-120', refused(4, 0))
    group('T and U, long strands')


def other_slots():
    """The same cache as one slot and as two: an entry may lie in a slot that is not its key's. Keys: AGC 206, GC 139."""
    w = World(2, 2)
    w.add(0, 'GAC', '210', folded(1, 1))
    w.add(1, 'AGAC', '0321', folded(1, 1))
    w.query('AGC', '021', found(1, 2), 'slot 0 of 2')
    w.query('GC', '10', found(2, 2), 'slot 1 of 2')
    w.query('AGC', '021', found(1, 0), 'slot 0 of 1', cache=512)
    w.query('GC', '10', found(2, 2), 'slot 0 of 1', cache=512)
    w.query('GC', '10', found(2, 0), 'slot 1 of 2')
    w.query('AGC', '021', found(1, 2), 'slot 0 of 2 has GC')
    w.remove(0, note='only from the first block', cache=512)
    w.query('GC', '10', found(1, 0), 'slot 1 of 2')
    w.add(0, 'A', '0', folded(0, 0), 'before the second block learns that 0 went', cache=512)
    w.query('GC', '10', found(1, 1), 'slot 1 of 2 has no bit 0: not held then')
    group('entries in other slots')


def long_strands():
    w = World(3, 1)
    w.add(0, 'A', '=160', folded(80, 80), '80 arcs, each in the one before')
    w.add(1, 'ACGU', '-160', folded(0, 0), 'no bonds')
    w.add(2, 'A', '-161', refused(3, 1))
    w.query('A', '=120', found(1, 2), '60 arcs')
    w.query('A', '=120', found(1, 0))
    w.query('A', '=120', refused(8, 2), work=9023)
    w.query('A', '=119', found(1, 2), '59 arcs and a base')
    w.query('A', '-080', found(1, 2), 'one end of each arc')
    w.query('ACGU', '-120', found(1, 2))
    w.query('A', '=121', refused(3, 0))
    w.query('A', '-161', refused(3, 0))
    w.query('UA', '-079', found(1, 2), 'every second and third base')
    w.add(2, 'A', '-119', folded(0, 0))
    w.query('A', '-120', refused(9, 2), hits=2)
    w.remove(0)
    w.remove(1)
    w.query('A', '-120', found(0, 1), '119 are too few')
    w.query('A', '-119', found(1, 1))
    w.add(0, 'A', '-120', folded(0, 0))
    w.query('A', '-120', found(1, 2))
    group('long strands')


def largest_buffers():
    w = World(512, 64)
    for d in range(512):
        w.add(d, 'GAC', '210', folded(1, 1))
    w.add(511, 'A', '0', refused(13, 2))
    w.add(512, 'A', '0', refused(12, 2))
    w.query('GC', '10', refused(9, 2), hits=511)
    w.query('GC', '10', found(512, 512))
    w.query('GC', '10', found(512, 0))
    w.query('GC', '01', found(0, 512))
    w.query('GC', '10', found(512, 512), 'the same slot')
    w.query('A', '0', found(512, 512))
    w.query('', '', found(512, 512), 'slot 0')
    w.query('', '', found(512, 0))
    w.query('', '', refused(9, 2), hits=511)
    w.remove(511)
    w.query('', '', found(511, 0))
    w.query('GC', '10', found(511, 0))
    w.add(511, 'A', '0', folded(0, 0))
    w.query('GC', '10', found(511, 1))
    set_byte('S', CACHE + BLOCK * (139 % 64) + 400, 1)
    w.query('A', '0', found(512, 1), 'another slot stays')
    w.query('GC', '10', found(511, 512))
    set_byte('S', BLOCK * 511, 9)
    w.query('GC', '10', refused(11, 2, 511))
    group('512 blocks of one molecule, 64 slots')


def random_molecules():
    w = Random(512, 64)
    w.random('a', 4711, 512)
    w.random('q', 1, 40)
    w.call('Q', 0, 4, 1, ['A'], [0])
    w.random('H', 815, 200)
    w.random('q', 1, 20)
    w.call('Q', 0, 4, 1, ['A'], [0])
    group('512 random molecules, 64 slots')


def histories():
    for b, s, seed in ((1, 1, 11), (2, 1, 22), (3, 1, 33), (3, 2, 44), (4, 2, 55), (8, 3, 66), (9, 5, 77), (17, 2, 88), (12, 8, 99)):
        w = Random(b, s)
        w.random('H', seed * 1000 + 7, 500)
        group('history of %d blocks and %d slots' % (b, s))


def files():
    begin()
    for part in (rows_of_add, rows_of_remove, rows_of_query, unsound_blocks, folds, story, used_again, altered, unsound_entries, foreign,
                 other_slots, long_strands, largest_buffers, random_molecules, histories):
        part()
    for slots in (1, 2, 3, 64):
        no_bases(slots)
    foreign_no_bases()
    for slots in (1, 2, 3, 64):
        spelled(slots)
    spelled_entries()
    long_spelled()
    return files_of('catalog_test')
