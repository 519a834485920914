"""The binding over the library: python3 -m unittest discover bindings/python, after bindings/python/build."""
import copy
import ctypes
import itertools
import mmap
import multiprocessing
import os
import pickle
import struct
import tempfile
import tracemalloc
import unittest
from array import array
from concurrent.futures import ThreadPoolExecutor
from unittest import mock

import anowhetele
from anowhetele import LIST_COUNTED, LIST_ZERO, Bill, Head, Lot, MetadataRow, NameRow, ObjectRow, Rate, Refusal, Refused, Row, Span, Tally, TimerRow

HERE = os.path.dirname(os.path.abspath(__file__))
AIR = bytes.fromhex('54 4C 59 00 01 00 00 00 01 00 03 61 69 72 00 00 00 00 00 00 10 00')
# where the first param0 of the block below stands
PARAM0 = 20


def air(timestamp=999_998, behind=b'\2\0\0\0\0\0\n\0\0'):
    """The shortest version 29 block: all air, the mapping `air` for id 0."""
    return b'\x1d\0\xff\xff' + struct.pack('>I', timestamp) + b'\0\0\1\0\0\0\3air\2\2' + bytes(4 * 4096) + behind


def sheet(*records):
    return b'WSH\0\1' + struct.pack('>I', len(records)) + b''.join(struct.pack('>qI', key, len(block)) + block for key, block in records)


def short_names():
    """Ever more names, the shortest first."""
    for length in itertools.count():
        for letters in itertools.product(range(256), repeat=length):
            yield bytes(letters)


# all content ids that blocks up to version 23 can have
OLD_IDS = [*range(128), *range(2048, 4096)]


def crowded(version, ids, names):
    """The shortest block of a version up to 24 that uses all these ids, with the next of the names for each: it has no other row, and from version 23
    on a single 0 for its metadata list."""
    used = list(itertools.islice(itertools.cycle(ids), anowhetele.NODES))
    if version < 24:
        params = b'\1\2' + bytes(i if i < 128 else i // 16 for i in used) + bytes(4096) + bytes(0 if i < 128 else i % 16 * 16 for i in used)
    else:
        params = b'\2\2' + struct.pack('>4096H', *used) + bytes(8192)
    metadata = b'\0\1\0\0' if version == 22 else b'\0\0'
    rows = b''.join(struct.pack('>HH', i, len(name)) + name for i, name in zip(ids, names))
    return bytes([version, 0]) + params + metadata + struct.pack('>BHIBH', 0, 0, 5, 0, len(ids)) + rows


INVENTORY = b'EndInventoryList\nEndInventory\n'
METADATA = b'\x0f\xff\0\0\0\1\0\4text\0\0\0\2hi\1' + INVENTORY
OBJECT = b'\7\xff\xff\xff\xff\0\0\0\2\0\0\0\3\0\2ox'
TIMER = b'\0\t\0\0\3\xe8\xff\xff\xff\xfe'
FURNISHED = air(5, b'\2\0\1' + METADATA + b'\0\0\1' + OBJECT + b'\n\0\1' + TIMER)
# the shortest block again, with a single 0 for its metadata list
ZERO = air(5, b'\0\0\0\0\n\0\0')

# air at 1500 thousandths, and at 2000 from second 1,000,000 on
AIR_RATES = anowhetele.rate_sheet([Rate(b'air', 0, 1500), Rate(b'air', 1_000_000, 2000)])


class Case(unittest.TestCase):
    def refused(self, text, call, *arguments, **named):
        with self.assertRaises(Refused) as caught:
            call(*arguments, **named)
        self.assertEqual(str(caught.exception), text)
        return caught.exception


class Refusals(Case):
    def test_copies_say_the_same(self):
        ways = [copy.copy, copy.deepcopy]
        ways += [lambda refused, p=protocol: pickle.loads(pickle.dumps(refused, p)) for protocol in range(pickle.HIGHEST_PROTOCOL + 1)]
        for number, offset, record in ((8, 20, 1), (1, 0, None), (15, None, 7), (13, None, None)):
            refused = Refused(number, offset, record)
            for again in (way(refused) for way in ways):
                self.assertIs(type(again), Refused)
                self.assertEqual((again.number, again.refusal, again.offset, again.record), (number, Refusal(number), offset, record))
                self.assertEqual((str(again), again.words), (str(refused), refused.words))

    def test_a_pool_hands_them_on(self):
        with multiprocessing.Pool(2) as pool:
            tallies = pool.map_async(anowhetele.tally_sheet, [sheet((k, air())) for k in range(9)])
            self.assertEqual(tallies.get(timeout=20), 9 * [Tally(AIR)])
            for call, given, text in (
                    (anowhetele.tally_sheet, [sheet((-1, air())), sheet((-1, air()), (5, b''))],
                     'refused 1 at offset 0 of record 1: the bytes end inside a field, or an inventory has no end line'),
                    (anowhetele.tally_sheet, [b'', sheet((-1, air()))],
                     'refused 15 at record 0: the mark, the version or the framing of the sheet is wrong, or its keys do not rise'),
                    (anowhetele.sections, [air(), b'\x1e'], 'refused 2 at offset 0: the version is not 22 to 29'),
                    (Tally, [AIR, b'TLY'], 'refused 13: the tally is malformed')):
                self.refused(text, lambda: pool.map_async(call, given).get(timeout=20))


class Places(Case):
    def test_keys(self):
        for place, key in [((0, 1, -2), -33_550_336), ((-1, 0, 0), -1), ((2047,) * 3, 34_351_347_711), ((2047, -1, 0), -2049)]:
            self.assertEqual(anowhetele.key_join(*place), key)
            self.assertEqual(anowhetele.key_split(key), place)
        self.refused('refused 9: a key or a coordinate is out of range', anowhetele.key_split, 34_351_347_712)

    def test_no_number_is_cut(self):
        for call in (lambda: anowhetele.key_join(2**32, 0, 0), lambda: anowhetele.key_split(2**64), lambda: Span(0, 2**32 + 5).has(1),
                     lambda: Lot.WORLD._replace(x0=2**32).has(0, 0, 0), lambda: anowhetele.node_name(air(), -1),
                     lambda: anowhetele.price_block(2**63, air(), AIR_RATES)):
            with self.assertRaises(OverflowError):
                call()

    def test_membership(self):
        self.assertTrue(Lot.WORLD.has(-32768, 0, 32767))
        self.assertFalse(Lot(0, 0, 0, 3, 3, 3).has(4, 0, 0))
        self.assertTrue(Span(0, 1_000_000).has(999_998))
        self.assertFalse(Span(0, 1_000_000).has(1_000_000))
        self.refused('refused 10: the lot is out of the world or turned round, or the span is turned round', Lot(1, 0, 0, 0, 0, 0).has, 0, 0, 0)

    def test_in_asks_what_has_does(self):
        lot, span = Lot(-1, -1, -1, 3, 3, 3), Span(5, 9)
        self.assertIn((1, 2, 0), lot)
        self.assertIn([-1, 3, 0], lot)
        self.assertNotIn((4, 0, 0), lot)
        for second, inside in ((4, False), (5, True), (8, True), (9, False)):
            self.assertEqual(second in span, inside)
        for node in (3, None, 'abc', (1, 1), (1, 1, 1, 1), (1, 1, '1'), (1.0, 1, 1)):
            with self.assertRaises(TypeError):
                node in lot
        for second in ('5', b'5', 5.0, None, (5,)):
            with self.assertRaises(TypeError):
                second in span
        for question in (lambda: (2**31, 0, 0) in lot, lambda: -1 in span, lambda: 2**32 in span):
            with self.assertRaises(OverflowError):
                question()
        for question in (lambda: (0, 0, 0) in Lot(1, 0, 0, 0, 0, 0), lambda: 1 in Span(2, 1)):
            self.refused('refused 10: the lot is out of the world or turned round, or the span is turned round', question)

    def test_they_are_still_tuples(self):
        lot, (start, until) = Lot(-1, -2, -3, 3, 2, 1), Span(5, 9)
        self.assertEqual((start, until), Span(5, 9))
        self.assertEqual((lot, {lot: 1}[-1, -2, -3, 3, 2, 1], lot.index(3)), ((-1, -2, -3, 3, 2, 1), 1, 3))
        self.assertEqual(pickle.loads(pickle.dumps(lot._replace(x0=0))), Lot(0, -2, -3, 3, 2, 1))


class Blocks(Case):
    def test_what_was_read_writes_back(self):
        block, nodes = anowhetele.read(FURNISHED)
        self.assertEqual(block, anowhetele.sections(FURNISHED))
        self.assertEqual(block.head, Head(29, 0, 65_535, 5, 0))
        self.assertEqual((len(nodes.param0), nodes.param1), (4096, bytes(4096)))
        self.assertEqual(anowhetele.write(block, nodes), FURNISHED)
        self.refused('refused 11: the result is longer than the output lent', anowhetele.write, block, nodes, len(FURNISHED) - 1)
        self.refused('refused 12: the parts do not fit', anowhetele.write, block, nodes._replace(param1=b''))

    def test_a_list_of_no_rows_has_two_forms(self):
        for data, list_form in ((air(5), LIST_COUNTED), (ZERO, LIST_ZERO)):
            block, nodes = anowhetele.read(data)
            self.assertEqual(block, anowhetele.sections(data))
            self.assertEqual((block.head, block.metadata), (Head(29, 0, 65_535, 5, 0, list_form), b''))
            self.assertEqual(anowhetele.write(block, nodes), data)
            self.assertEqual(anowhetele.tally_block(-1, data), Tally(AIR))
        self.assertEqual(len(ZERO), len(air(5)) - 2)

    def test_a_head_without_a_list_form_is_counted(self):
        block, nodes = anowhetele.read(ZERO)
        head = Head(29, 0, 65_535, 5, 0)
        self.assertEqual((head, head.list_form), (block.head._replace(list_form=LIST_COUNTED), LIST_COUNTED))
        self.assertEqual(anowhetele.write(block._replace(head=head), nodes), air(5))
        # the form stands where C had a byte that no field used
        self.assertEqual((ctypes.sizeof(anowhetele._Head), anowhetele._Head.list_form.offset), (12, 9))

    def test_the_list_form_must_fit(self):
        block, nodes = anowhetele.read(ZERO)
        old = block.head._replace(version=22)
        counted = old._replace(list_form=LIST_COUNTED)
        self.assertEqual(anowhetele.sections(anowhetele.write(block._replace(head=counted), nodes)).head, counted)
        for head, metadata in ((old, b''), (block.head, METADATA), (block.head._replace(list_form=2), b''), (block.head._replace(list_form=255), b'')):
            self.refused('refused 12: the parts do not fit', anowhetele.write, block._replace(head=head, metadata=metadata), nodes)
        for list_form in (-1, 256):
            with self.assertRaises(OverflowError):
                anowhetele.write(block._replace(head=block.head._replace(list_form=list_form)), nodes)

    def test_each_fixed_field_has_a_number_of_its_own(self):
        for offset, refusal in ((8, Refusal.MAPPING_VERSION_DIFFERS), (18, Refusal.CONTENT_WIDTH_DIFFERS), (19, Refusal.PARAMS_WIDTH_DIFFERS),
                                (16_404, Refusal.METADATA_VERSION_DIFFERS), (16_425, Refusal.PRIVATE_BYTE_DIFFERS),
                                (16_456, Refusal.OBJECT_VERSION_DIFFERS), (16_476, Refusal.TIMER_ROW_LENGTH_DIFFERS)):
            spoilt = bytearray(FURNISHED)
            spoilt[offset] = 77
            with self.assertRaises(Refused) as caught:
                anowhetele.sections(spoilt)
            self.assertEqual((caught.exception.refusal, caught.exception.offset), (refusal, offset))
        block, nodes = anowhetele.read(air())
        block = block._replace(head=block.head._replace(version=24, timer_byte=2))
        text = 'refused 35 at offset 16391: the timer byte is not 0 in version 23, or not 0 or 1 in version 24'
        self.refused(text, anowhetele.write, block, nodes)

    def test_param0_is_numbers(self):
        block, nodes = anowhetele.read(crowded(24, range(4096), short_names()))
        self.assertEqual(list(nodes.param0), list(range(4096)))
        written = anowhetele.write(block, nodes)
        for param0 in (list(nodes.param0), array('L', nodes.param0), memoryview(nodes.param0), range(4096)):
            self.assertEqual(anowhetele.write(block, nodes._replace(param0=param0)), written)
        for param0 in (nodes.param0.tobytes(), bytearray(8192), bytes(4096), 'a' * 4096, 4096 * [0.5], None):
            with self.assertRaises(TypeError):
                anowhetele.write(block, nodes._replace(param0=param0))
        with self.assertRaises(OverflowError):
            anowhetele.write(block, nodes._replace(param0=4096 * [65536]))
        for param0 in ([], range(4095), memoryview(bytes(8192))):
            self.refused('refused 12: the parts do not fit', anowhetele.write, block, nodes._replace(param0=param0))

    def test_rows(self):
        block = anowhetele.sections(FURNISHED)
        self.assertEqual(anowhetele.name_row(block.names + b'x'), (NameRow(0, b'air'), b'x'))
        self.assertEqual(list(anowhetele.name_rows(2 * block.names)), 2 * [NameRow(0, b'air')])
        row = MetadataRow(4095, 0, b'', 1, b'\0\4text\0\0\0\2hi\1', INVENTORY)
        self.assertEqual(list(anowhetele.metadata_rows(29, 2 * block.metadata)), [row, row])
        self.assertEqual(anowhetele.metadata_row(22, b'\0\5\0\x0e\0\3abcd'), (MetadataRow(5, 14, b'abc', 0, b'', b''), b'd'))
        self.assertEqual(list(anowhetele.object_rows(2 * block.objects)), 2 * [ObjectRow(7, -1, 2, 3, b'ox')])
        self.assertEqual(list(anowhetele.timer_rows(2 * block.timers)), 2 * [TimerRow(9, 1000, -2)])
        self.refused('refused 16: there is no such row or node', anowhetele.timer_row, b'')
        self.refused('refused 4 at offset 0: a position is above 4095', anowhetele.timer_row, b'\x10\0')

    def test_nodes(self):
        self.assertEqual(anowhetele.node_name(air(), 4095), b'air')
        self.refused('refused 16: there is no such row or node', anowhetele.node_name, air(), 4096)
        self.assertEqual((anowhetele.light_count(0xfffe), anowhetele.light_count(0xf000)), (1, 12))


class Tallies(Case):
    def test_the_shortest_block(self):
        tally = anowhetele.tally_block(-1, air(), room=22)
        self.assertEqual(tally, Tally(AIR))
        self.assertEqual(list(tally), [Row(b'air', 4096)])
        self.refused('refused 11: the result is longer than the output lent', anowhetele.tally_block, -1, air(), room=21)
        self.assertEqual(anowhetele.tally_block(-1, air(1_000_000), span=Span(0, 1_000_000)), Tally.EMPTY)

    def test_sheets(self):
        with open(os.path.join(HERE, '../../crates/sheetcount/stdin'), 'rb') as f:
            self.assertEqual(anowhetele.tally_sheet(f.read()).bytes, AIR)
        bad = bytearray(air())
        bad[PARAM0 + 1] = 9
        refused = self.refused('refused 8 at offset 20 of record 1: a node has an id that is not mapped to a name', anowhetele.tally_sheet, sheet((-1, air()), (5, bad)))
        self.assertEqual((refused.number, refused.refusal, refused.offset, refused.record), (8, Refusal.ID_UNMAPPED, 20, 1))
        self.refused('refused 15 at record 1: the mark, the version or the framing of the sheet is wrong, or its keys do not rise', anowhetele.tally_sheet,
                     sheet((10, air()), (9, air())))

    def test_halves_make_the_whole(self):
        bytes_ = sheet((-1, air()), (0, air()))
        whole, left, right = (anowhetele.tally_sheet(bytes_, Lot.WORLD._replace(x0=x0, x1=x1)) for x0, x1 in ((-20, 9), (-20, 3), (4, 9)))
        self.assertEqual(right.merge(left), whole)
        self.assertEqual(list(whole), [Row(b'air', 26 * 256)])

    def test_adding(self):
        tally = Tally.EMPTY.add(b'default:stone', 3).add(b'air', 2**64 - 1).add(b'default:dirt', 0)
        self.assertEqual(list(tally), [Row(b'air', 2**64 - 1), Row(b'default:stone', 3)])
        self.assertEqual(len(tally), 2)
        self.refused('refused 14: a count or a total is above 2^64-1, or there are more than 2^32-1 rows', tally.add, b'air', 1)
        self.refused('refused 13: the tally is malformed', Tally, b'TLY')

    def test_counts_by_name(self):
        tally = Tally.EMPTY.add(b'default:stone', 3).add(b'', 2**64 - 1)
        for name in (b'default:stone', bytearray(b'default:stone'), memoryview(b'default:stone')):
            self.assertTrue(name in tally)
            self.assertEqual((tally[name], tally.get(name), tally.get(name, None)), (3, 3, 3))
        self.assertEqual((b'' in tally, tally[b'']), (True, 2**64 - 1))
        self.assertFalse(b'default:ston' in tally)
        self.assertEqual((tally.get(b'air'), tally.get(b'air', None), b'' in Tally.EMPTY), (0, None, False))
        self.assertEqual(dict(tally), {b'': 2**64 - 1, b'default:stone': 3})
        with self.assertRaises(KeyError):
            tally[b'air']
        for name in ('default:stone', 0, None, Row(b'default:stone', 3)):
            for question in (lambda: name in tally, lambda: tally[name], lambda: tally.get(name)):
                with self.assertRaises(TypeError):
                    question()

    def test_a_tally_is_a_value(self):
        given = bytearray(AIR)
        tally = Tally(given)
        given[-1] = 7
        self.assertEqual((tally.bytes, tally[b'air'], hash(tally)), (AIR, 4096, hash(Tally(AIR))))
        for again in (copy.copy(tally), copy.deepcopy(tally), pickle.loads(pickle.dumps(tally))):
            self.assertEqual((again, again[b'air']), (tally, 4096))
        with self.assertRaises(AttributeError):
            tally.bytes = b''
        self.assertNotEqual(tally, AIR)
        self.assertEqual(tally, mock.ANY)


class Prices(Case):
    def test_rates_are_put_in_order(self):
        rates = [Rate(b'b', 0, 1), Rate(b'a', 10, 2), Rate(b'', 7, 2**32 - 1), Rate(b'a', 9, 3), Rate(b'ab', 0, 0), Rate(b'\xff', 2**32 - 1, 4)]
        made = anowhetele.rate_sheet(rates)
        self.assertEqual(made[:22], b'RTE\0\1\0\0\0\6\0\0\0\0\0\7\xff\xff\xff\xff\0\1a')
        anowhetele.check_rates(made)
        self.assertEqual(list(anowhetele.rate_rows(made)), [rates[place] for place in (2, 3, 1, 4, 0, 5)])
        self.assertEqual(anowhetele.rate_sheet((bytearray(name), start, price) for name, start, price in reversed(rates)), made)
        anowhetele.check_rates(anowhetele.rate_sheet([Rate(bytes(65535), 5, 6)]))
        self.assertEqual(anowhetele.rate_sheet([]), b'RTE\0\1\0\0\0\0')

    def test_what_makes_no_rate_sheet(self):
        for rates, error in (([(b'a', 9, 1), (b'b', 9, 1), (b'a', 9, 2)], ValueError), ([(bytes(65536), 0, 0)], ValueError),
                             ([(b'a', 2**32, 1)], OverflowError), ([(b'a', -1, 1)], OverflowError), ([(b'a', 1, 2**32)], OverflowError),
                             ([(b'a', 1, -1)], OverflowError), ([('a', 1, 1)], TypeError), ([(b'a', 1.0, 1)], TypeError), ([(b'a', 1, '1')], TypeError)):
            with self.assertRaises(error):
                anowhetele.rate_sheet(rates)

    def test_others_are_refused(self):
        good = anowhetele.rate_sheet([(b'a', 9, 1), (b'a', 10, 1)])
        # a rate of this name has eleven bytes
        for bad in (good[:9] + good[20:] + good[9:20], good + b'\0', good[1:], good[:8], good[:-1], b'', AIR):
            self.refused('refused 40: the rate sheet is malformed', anowhetele.check_rates, bad)
            self.refused('refused 40: the rate sheet is malformed', anowhetele.rate_rows, bad)

    def test_a_block_s_time_decides(self):
        for timestamp, total in ((999_998, 6_144_000), (999_999, 6_144_000), (1_000_000, 8_192_000), (2**32 - 1, 0)):
            self.assertEqual(anowhetele.price_block(-1, air(timestamp), AIR_RATES), Bill(total, 0))

    def test_a_price_of_none_is_a_price(self):
        self.assertEqual(anowhetele.price_block(-1, air(5), anowhetele.rate_sheet([(b'air', 0, 0)])), Bill(0, 0))
        for rates in ([(b'air', 6, 1)], [(b'ai', 0, 1), (b'air2', 0, 1)], []):
            self.assertEqual(anowhetele.price_block(-1, air(5), anowhetele.rate_sheet(rates)), Bill(0, 4096))

    def test_parts_add_up(self):
        bytes_ = sheet((-1, air(5)), (0, air(1_000_000)))
        rates, total = anowhetele.rate_sheet([(b'air', 6, 2**32 - 1)]), 4096 * (2**32 - 1)
        for x0, x1, span, bill in ((-16, 15, Span.ALL_TIME, Bill(total, 4096)), (0, 7, Span.ALL_TIME, Bill(total // 2, 0)),
                                   (8, 15, Span.ALL_TIME, Bill(total // 2, 0)), (-16, 15, Span(0, 6), Bill(0, 4096)),
                                   (-16, 15, Span(6, 2**32 - 1), Bill(total, 0))):
            self.assertEqual(anowhetele.price_sheet(bytes_, rates, Lot.WORLD._replace(x0=x0, x1=x1), span), bill)

    def test_refusals_have_their_order(self):
        bad = bytearray(air())
        bad[PARAM0 + 1] = 9
        words = 'refused 10: the lot is out of the world or turned round, or the span is turned round'
        self.refused(words, anowhetele.price_block, 2**40, bad, b'', span=Span(2, 1))
        self.refused('refused 40: the rate sheet is malformed', anowhetele.price_block, 2**40, bad, b'')
        self.refused('refused 9: a key or a coordinate is out of range', anowhetele.price_block, 2**40, bad, AIR_RATES)
        self.refused('refused 8 at offset 20: a node has an id that is not mapped to a name', anowhetele.price_block, 0, bad, AIR_RATES)
        self.refused('refused 40 at record 0: the rate sheet is malformed', anowhetele.price_sheet, b'', b'')
        self.refused('refused 15 at record 0: the mark, the version or the framing of the sheet is wrong, or its keys do not rise', anowhetele.price_sheet, b'', AIR_RATES)
        self.refused('refused 8 at offset 20 of record 1: a node has an id that is not mapped to a name', anowhetele.price_sheet, sheet((-1, air()), (5, bad)), AIR_RATES)

    def test_the_program_s_example(self):
        with open(os.path.join(HERE, '../../crates/sheetcount/stdin'), 'rb') as f:
            self.assertEqual(anowhetele.price_sheet(f.read(), AIR_RATES), Bill(6_144_000, 0))


class Rooms(Case):
    """Without a room every result is taken; with one that is a byte too short none."""

    def told(self, call, *arguments):
        """The result without a room, which is also that of the room it needs."""
        result = call(*arguments)
        length = len(result.bytes)
        self.assertEqual(call(*arguments, room=length), result)
        with self.assertRaises(Refused) as caught:
            call(*arguments, room=length - 1)
        self.assertEqual(caught.exception.refusal, Refusal.NO_ROOM)
        return result

    def test_the_longest_tallies(self):
        for version, ids in ((22, OLD_IDS), (23, OLD_IDS), (24, range(4096))):
            self.assertEqual(len(self.told(anowhetele.tally_block, 0, crowded(version, ids, short_names()))), len(ids))
        names = short_names()
        records = [(key, crowded(24, range(4096), names)) for key in range(5)]
        self.assertEqual(len(self.told(anowhetele.tally_sheet, sheet(*records))), 5 * 4096)

    def test_the_shortest_results(self):
        self.assertEqual(self.told(anowhetele.tally_sheet, sheet()), Tally.EMPTY)
        self.assertEqual(self.told(Tally.EMPTY.merge, Tally.EMPTY), Tally.EMPTY)
        self.assertEqual(self.told(Tally.EMPTY.add, b'air', 0), Tally.EMPTY)
        self.assertEqual(self.told(Tally(AIR).add, b'air', 1)[b'air'], 4097)
        self.assertEqual(self.told(Tally(AIR).add, bytes(65535), 1)[bytes(65535)], 1)
        self.assertEqual(len(self.told(Tally(AIR).merge, Tally.EMPTY.add(b'', 1))), 2)

    def test_other_refusals_come_first(self):
        self.refused('refused 1 at offset 0: the bytes end inside a field, or an inventory has no end line', anowhetele.tally_block, 0, b'', room=0)
        self.refused('refused 15 at record 0: the mark, the version or the framing of the sheet is wrong, or its keys do not rise', anowhetele.tally_sheet, b'')
        self.refused('refused 12: the parts do not fit', Tally.EMPTY.add, bytes(65536), 1)
        self.refused('refused 12: the parts do not fit', Tally.EMPTY.add, bytes(65536), 1, room=0)
        for room in (-1, 2**64):
            with self.assertRaises(OverflowError):
                anowhetele.tally_block(0, air(), room=room)


class Odd(bytes):
    """Bytes that do not tell their length."""

    def __len__(self):
        return 1 << 40


class Buffers(Case):
    """What is bytes-like is lent as it stands, and given back."""

    def each(self, data):
        """The same bytes in other objects."""
        wide = bytearray(2 * len(data))
        wide[::2] = data
        yield from (data, bytearray(data), memoryview(data), memoryview(bytearray(data)), memoryview(b'x' + data + b'y')[1:-1], memoryview(wide)[::2],
                    array('B', data), Odd(data))

    def test_all_say_the_same(self):
        good, furnished = sheet((-1, air())), anowhetele.sections(FURNISHED)
        for data in self.each(FURNISHED):
            self.assertEqual(anowhetele.sections(data), furnished)
            self.assertEqual(anowhetele.read(data), anowhetele.read(FURNISHED))
            self.assertEqual(anowhetele.node_name(data, 0), b'air')
            self.assertEqual(anowhetele.tally_block(-1, data), Tally(AIR))
        for data in self.each(good):
            self.assertEqual(anowhetele.tally_sheet(data), Tally(AIR))
        for data in self.each(2 * furnished.timers):
            self.assertEqual(anowhetele.timer_row(data), (TimerRow(9, 1000, -2), furnished.timers))
            self.assertEqual(list(anowhetele.timer_rows(data)), 2 * [TimerRow(9, 1000, -2)])
        for data in self.each(AIR):
            self.assertEqual(Tally(data), Tally(AIR))
        for data, rates, block in zip(self.each(good), self.each(AIR_RATES), self.each(FURNISHED)):
            self.assertEqual(anowhetele.price_sheet(data, rates), Bill(6_144_000, 0))
            self.assertEqual(anowhetele.price_block(-1, block, rates), Bill(6_144_000, 0))
            self.assertEqual(list(anowhetele.rate_rows(rates)), list(anowhetele.rate_rows(AIR_RATES)))
        block, nodes = anowhetele.read(FURNISHED)
        for parts in zip(*map(self.each, block[1:])):
            self.assertEqual(anowhetele.write(block._make((block.head, *parts)), nodes), FURNISHED)
        for param1, param2 in zip(self.each(nodes.param1), self.each(nodes.param2)):
            self.assertEqual(anowhetele.write(block, nodes._replace(param1=param1, param2=param2)), FURNISHED)

    def test_parts_are_bytes_of_their_own(self):
        data = bytearray(FURNISHED)
        block, nodes = anowhetele.read(data)
        name, front = anowhetele.node_name(data, 0), anowhetele.name_row(memoryview(data)[11:19])
        data[:] = bytes(len(data))
        self.assertEqual((block, nodes), anowhetele.read(FURNISHED))
        self.assertEqual((name, front), (b'air', (NameRow(0, b'air'), b'\2')))

    def test_nothing_is_copied(self):
        good = sheet(*((key, air()) for key in range(100)))
        for data in (good, bytearray(good), memoryview(good), array('B', good)):
            self.assertLess(self.taken(anowhetele.tally_sheet, data, room=64), 4096)
            self.assertLess(self.taken(anowhetele.price_sheet, data, AIR_RATES), 4096)
        tally = Tally(AIR)
        for call, given in ((tally.merge, (tally,)), (tally.add, (b'air', 1))):
            self.assertLess(self.taken(call, *given), 4096)

    def taken(self, call, *arguments, **named):
        """The most memory that Python has for a call, in bytes."""
        call(*arguments, **named)
        tracemalloc.start()
        call(*arguments, **named)
        _, peak = tracemalloc.get_traced_memory()
        tracemalloc.stop()
        return peak

    def test_threads_may_share_one(self):
        data = bytearray(sheet(*((key, air()) for key in range(100))))
        with ThreadPoolExecutor(4) as threads:
            tallies = list(threads.map(anowhetele.tally_sheet, 40 * [data]))
        self.assertEqual({tally[b'air'] for tally in tallies}, {100 * 4096})
        data.append(0)

    def test_a_mapped_file(self):
        with tempfile.TemporaryFile() as file:
            file.write(sheet((-1, air())))
            file.flush()
            mapped = mmap.mmap(file.fileno(), 0, access=mmap.ACCESS_READ)
        self.assertEqual(anowhetele.tally_sheet(mapped), Tally(AIR))
        self.refused('refused 2 at offset 0: the version is not 22 to 29', anowhetele.sections, mapped)
        self.refused('refused 13: the tally is malformed', Tally, mapped)
        mapped.close()
        with self.assertRaises(ValueError):
            anowhetele.tally_sheet(mapped)

    def test_they_are_given_back(self):
        good, bad = bytearray(sheet((-1, air()))), bytearray(FURNISHED)
        bad[0] = 30
        kept = []
        anowhetele.tally_sheet(good)
        for call in (anowhetele.tally_sheet, anowhetele.sections, anowhetele.read, lambda data: anowhetele.tally_block(-1, data), Tally,
                     lambda data: anowhetele.node_name(data, 0), anowhetele.timer_row, lambda data: anowhetele.metadata_row(30, data),
                     anowhetele.check_rates, lambda data: anowhetele.price_sheet(good, data), lambda data: anowhetele.price_block(-1, data, AIR_RATES)):
            with self.assertRaises(Refused) as caught:
                call(bad)
            # an exception keeps the call's variables alive
            kept.append(caught.exception)
        block, nodes = anowhetele.read(FURNISHED)
        for parts in (block._replace(timers=bad), block._replace(timers=bad, names=good, objects='')):
            with self.assertRaises((Refused, TypeError)) as caught:
                anowhetele.write(parts, nodes)
            kept.append(caught.exception)
        for data in (good, bad):
            data.append(0)

    def test_rows_give_back_at_their_end(self):
        rows = bytearray(2 * TIMER)
        list(anowhetele.timer_rows(rows))
        rows.append(0)
        with self.assertRaises(Refused) as caught:
            list(anowhetele.timer_rows(rows))
        self.assertEqual(caught.exception.offset, 0)
        rows.append(0)
        anowhetele.timer_rows(rows)
        started = anowhetele.timer_rows(rows)
        next(started)
        with self.assertRaises(BufferError):
            rows.append(0)
        started.close()
        rows.append(0)

    def test_what_is_no_bytes(self):
        for call in (anowhetele.tally_sheet, anowhetele.sections, anowhetele.name_row, anowhetele.name_rows, Tally, anowhetele.check_rates,
                     anowhetele.rate_rows, lambda data: anowhetele.price_sheet(data, AIR_RATES), lambda data: anowhetele.price_block(0, air(), data)):
            for data in ('air', 5, None, [1, 2]):
                with self.assertRaises(TypeError):
                    call(data)


if __name__ == '__main__':
    unittest.main()
