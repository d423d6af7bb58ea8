"""Tests of the module `riegeli`, of what no clause of the library says."""
import contextlib
import gc
import hashlib
import os
import pickle
import random
import re
import shutil
import struct
import subprocess
import sys
import tempfile
import threading
import time
import unittest
import warnings
from collections.abc import Sequence
from pathlib import Path
from unittest import mock

sys.path.insert(0, str(Path(__file__).resolve().parent))
import riegeli  # noqa: E402
from riegeli import Fault, Reader, Reason, Region, Writer  # noqa: E402

LETTERS = [b"a", b"b", b"c"]


def drawn_bytes(draw, count):
    return draw.getrandbits(8 * count + 1).to_bytes(count + 1, "little")[:count]


def chunk(kind, data, records=0, decoded=0):
    """A chunk that lies in one block, with right hashes."""
    rest = struct.pack("<QQ", len(data), riegeli.hash(data)) + kind + records.to_bytes(7, "little") + struct.pack("<Q", decoded)
    return struct.pack("<Q", riegeli.hash(rest)) + rest + data


class Case(unittest.TestCase):
    def setUp(self):
        folder = tempfile.TemporaryDirectory()
        self.addCleanup(folder.cleanup)
        self.folder = Path(folder.name)
        self.path = self.folder / "x.riegeli"

    def written(self, records, path=None, **options):
        with Writer(path or self.path, **options) as writer:
            writer.write_all(records)
        return path or self.path

    def changed(self, place, path=None):
        """The file with another byte at a place."""
        path = path or self.path
        data = bytearray(path.read_bytes())
        data[place] ^= 0xFF
        path.write_bytes(data)
        return path

    def refused(self, place, reason):
        outer = self

        class Context:
            def __enter__(self):
                return self

            def __exit__(self, kind, error, _):
                outer.assertIs(kind, Fault, error)
                outer.assertEqual((error.place, error.reason), (place, reason))
                return True

        return Context()


class Reading(Case):
    def test_records_positions_and_chunks(self):
        self.written(LETTERS + [b"", b"de"], every=2)
        with Reader(self.path) as reader:
            self.assertEqual(list(reader), LETTERS + [b"", b"de"])
            self.assertEqual(list(reader), LETTERS + [b"", b"de"])
            positions, records = zip(*reader.items())
            self.assertEqual((positions[:3], records), ((64, 65, 110), (b"a", b"b", b"c", b"", b"de")))
            first, second, third = reader.chunks()
            self.assertEqual((first.begin, first.end, first.values, list(first.ends)), (64, 110, b"ab", [1, 2]))
            self.assertEqual((second[0], second[1], second[-1], second[-2], len(second)), (b"c", b"", b"", b"c", 2))
            self.assertEqual(list(third.items()), [(third.begin, b"de")])
            with self.assertRaises(IndexError):
                second[2]
            self.assertEqual(list(pickle.loads(pickle.dumps(second))), [b"c", b""])
            self.assertEqual(reader.verify(), (4, 5, self.path.stat().st_size, 0))
            self.assertEqual(riegeli.verify(self.path).records, 5)

    def test_a_chunk_is_a_sequence(self):
        records = [b"a", b"", b"bc", b"a", b"d"]
        data = self.written(records).read_bytes()
        (chunk,), (same,) = Reader.over(data).chunks(), Reader(self.path).chunks()
        self.assertIsInstance(chunk, Sequence)
        for it in slice(None), slice(1, 3), slice(-2, None), slice(None, None, -2), slice(7, 9):
            self.assertEqual(chunk[it], records[it])
        self.assertEqual((chunk.index(b"bc"), chunk.index(b"a", 1), chunk.count(b"a")), (2, 3, 2))
        self.assertEqual(list(reversed(chunk)), records[::-1])
        self.assertIn(b"bc", chunk)
        self.assertEqual(chunk, same)
        self.assertNotEqual(chunk, records)
        (other,) = Reader(self.written([*records, b""])).chunks()
        self.assertNotEqual(chunk, other)

    def test_a_chunk_is_decoded_once(self):
        def calls(name):
            return mock.patch.object(riegeli._library, name, wraps=getattr(riegeli._library, name))

        # Chunks of a long record and of many short ones by turns: the room grows for the first of each.
        self.written([*[bytes(3 << 20)], *[b""] * 300_000] * 4, chunk=3 << 20)
        with Reader(self.path) as reader, calls("riegeli_read_chunk") as read:
            self.assertEqual([len(it) for it in reader.chunks()], [1, 300_000] * 4)
            self.assertEqual(read.call_count, 1 + 8 + 2)
        self.written([bytes(100_000)])
        with Reader(self.path) as reader, calls("riegeli_seek") as seek, calls("riegeli_find") as find:
            self.assertEqual(len(reader.at(0).record), len(reader.find(b"").record))
            self.assertEqual((seek.call_count, find.call_count), (1, 1))

    def test_a_file_in_memory(self):
        data = self.written(LETTERS).read_bytes()
        for it in data, bytearray(data), memoryview(data), memoryview(bytearray(b"x" + data))[1:]:
            with Reader.over(it) as reader:
                self.assertEqual(list(reader), LETTERS)
                self.assertEqual(reader.at(65), (65, b"b", 64))

    def test_empty_files_and_lists(self):
        self.path.write_bytes(b"")
        for reader in Reader(self.path), Reader.over(b""), Reader.over(bytearray()):
            with reader:
                self.assertEqual(reader.size, 0)
                for call in reader.verify, lambda: list(reader), lambda: list(reader.chunks()):
                    with self.refused(0, Reason.NoSignature):
                        call()
                self.assertEqual((list(reader.recover()), reader.at(0), reader.find(b""), reader.split(0)), ([], None, None, 0))
        self.written([])
        with Reader(self.path) as reader:
            self.assertEqual((list(reader), reader.size, reader.at(0), reader.find(b"a")), ([], 64, None, None))

    def test_a_fault_comes_behind_the_records_before_it(self):
        self.written(LETTERS, chunk=1)
        self.changed(116)
        with Reader(self.path) as reader:
            records = iter(reader)
            self.assertEqual(next(records), b"a")
            with self.refused(108, Reason.HeaderHash):
                next(records)
            with self.refused(108, Reason.HeaderHash):
                reader.verify()
        fault = pickle.loads(pickle.dumps(Fault(108, 3)))
        self.assertIsInstance(fault, riegeli.Error)
        self.assertEqual((str(fault), fault.reason), ("refused 108 HeaderHash", Reason.HeaderHash))

    def test_chunks_that_are_not_read(self):
        front = self.written([b"a"]).read_bytes()
        for kind, data, reason in (b"r", b"b\0\0", Reason.Compressed), (b"t", b"b\0\0", Reason.Transposed):
            for padding in 0, 65536 - 108 - 40, 65536 - 108 - 40 - 24:
                file = front + chunk(b"p", bytes(padding)) if padding else front
                if padding == 65536 - 108 - 40 - 24:
                    # The header's first 24 bytes stand before a block header.
                    whole, place = chunk(kind, data, 1), len(file)
                    between = struct.pack("<QQ", 24, len(whole))
                    file += whole[:24] + struct.pack("<Q", riegeli.hash(between)) + between + whole[24:]
                elif padding:
                    whole, place = chunk(kind, data, 1), len(file)
                    between = struct.pack("<QQ", 0, 24 + len(whole))
                    file += struct.pack("<Q", riegeli.hash(between)) + between + whole
                else:
                    place = len(file)
                    file += chunk(kind, data, 1)
                with self.subTest(reason=reason, padding=padding), Reader.over(file) as reader:
                    self.assertEqual(reader.verify().unread, 1)
                    with self.refused(place, reason):
                        list(reader)
                    self.assertEqual(list(reader.recover()), [b"a", Region(place, len(file), reason)])

    def test_searches(self):
        records = [b"%06d" % i for i in range(0, 60000, 2)]
        self.written(records, chunk=1000)
        with Reader(self.path) as reader:
            items = list(reader.items())
            for i in random.Random(1).sample(range(len(items)), 100):
                found = reader.at(items[i][0])
                self.assertEqual(found[:2], items[i])
                self.assertIn(found[:2], reader.items(found.begin))
                self.assertEqual(reader.find(records[i])[:2], items[i])
                self.assertEqual(reader.find(b"%06d" % (2 * i - 1))[:2], items[i])
            self.assertEqual(reader.find(b"1"), None)
            self.assertEqual(reader.at(2**64 - 1), None)
            self.assertEqual(reader.find(bytearray(b""))[:2], items[0])
            calls = reader.at, reader.split, lambda it: next(reader.chunks(it)), lambda it: next(reader.chunks(0, it))
            for kind, numbers in (ValueError, (-1, 2**64)), (TypeError, (1.5, 64.0, "64")):
                for number in numbers:
                    for call in calls:
                        with self.assertRaises(kind):
                            call(number)
            for key in "text", 3, None, [b"a"]:
                with self.assertRaisesRegex(TypeError, rf"\Aa bytes-like object is required, not '{type(key).__name__}'"):
                    reader.find(key)

    def test_a_long_record_is_found(self):
        self.written([b"a", b"b" * 100000])
        with Reader(self.path) as reader:
            self.assertEqual(reader.find(b"b").record, b"b" * 100000)

    def test_parts(self):
        draw = random.Random(2)
        records = [drawn_bytes(draw, draw.randrange(300)) for _ in range(5000)]
        self.written(records, chunk=3000, pad="both")
        with Reader(self.path) as reader:
            for step in 1000, 65536, 70001, reader.size, 2 * reader.size:
                places = [reader.split(at) for at in range(0, reader.size, step)] + [reader.size]
                parts = [list(reader.records(*part)) for part in zip(places, places[1:])]
                self.assertEqual(sum(parts, []), records)
            self.assertEqual(reader.split(reader.size), reader.size)
            with self.assertRaisesRegex(ValueError, "no chunk begins at 66000: the one at 65536"):
                list(reader.records(0, 66000))
            with self.assertRaisesRegex(ValueError, "no chunk can begin at 3"):
                list(reader.records(3))

    def test_what_cannot_be_opened(self):
        for path in self.folder / "none", self.folder:
            with self.assertRaises(OSError) as caught, open(path, "rb"):
                pass
            with self.assertRaisesRegex(type(caught.exception), re.escape(str(caught.exception))):
                Reader(path)
        os.mkfifo(self.folder / "pipe")
        with self.assertRaisesRegex(ValueError, "no regular file"):
            Reader(self.folder / "pipe")

    def test_after_close(self):
        reader = Reader(self.written(LETTERS, every=1))
        records = iter(reader)
        self.assertEqual(next(records), b"a")
        reader.close()
        reader.close()
        for call in (
            lambda: next(records), lambda: list(reader), reader.verify, lambda: reader.at(0), lambda: reader.find(b""),
            lambda: reader.split(0), lambda: list(reader.recover()), lambda: reader.repair(self.folder / "y"), reader.__enter__,
        ):
            with self.assertRaisesRegex(ValueError, "closed"):
                call()
        self.assertEqual(os.listdir(self.folder), ["x.riegeli"])

    def test_a_copy_by_pickle(self):
        reader = Reader(os.path.relpath(self.written(LETTERS)))
        copies = [pickle.dumps(it) for it in (reader, Reader.over(memoryview(self.path.read_bytes())))]
        self.addCleanup(os.chdir, os.getcwd())
        os.chdir("/")
        for it in copies:
            self.assertEqual(list(pickle.loads(it)), LETTERS)
        reader.close()
        with self.assertRaisesRegex(ValueError, "closed"):
            pickle.dumps(reader)

    def test_nothing_stays_mapped(self):
        self.written(LETTERS)
        for _ in range(3):
            with Reader(self.path) as reader:
                self.assertEqual(list(reader), LETTERS)
                self.assertIn(str(self.path), Path("/proc/self/maps").read_text())
            self.assertNotIn(str(self.path), Path("/proc/self/maps").read_text())

    def test_a_sparse_file_of_64_gigabytes(self):
        self.written(LETTERS)
        os.truncate(self.path, 1 << 36)
        with Reader(self.path) as reader:
            with self.refused(112, Reason.HeaderHash):
                reader.verify()
            self.assertEqual(reader.at(0).record, b"a")

    def test_threads(self):
        records = [b"%d" % i for i in range(50000)]
        self.written(records, chunk=5000)
        wanted, wrong = hashlib.sha256(b"\n".join(records)).digest(), []

        def read(reader):
            for _ in range(3):
                if hashlib.sha256(b"\n".join(reader)).digest() != wanted or reader.verify().records != len(records):
                    wrong.append(reader)

        with Reader(self.path) as reader:
            threads = [threading.Thread(target=read, args=[reader]) for _ in range(8)]
            for thread in threads:
                thread.start()
            for thread in threads:
                thread.join()
        self.assertEqual(wrong, [])

    def test_close_while_others_read(self):
        self.written([bytes(1000)] * 20000)
        for _ in range(20):
            reader, ended = Reader(self.path), []

            def read():
                try:
                    while True:
                        reader.verify()
                except ValueError as error:
                    ended.append(str(error))

            threads = [threading.Thread(target=read) for _ in range(4)]
            for thread in threads:
                thread.start()
            reader.close()
            for thread in threads:
                thread.join()
            self.assertEqual(ended, ["the reader is closed"] * 4)


class Damage(Case):
    def test_find_behind_a_wrong_block_header(self):
        self.written(LETTERS)
        self.changed(8)
        with Reader(self.path) as reader:
            self.assertEqual(reader.find(b"b"), (65, b"b", 64))
            with self.refused(0, Reason.BlockHeader):
                reader.at(65)

    def test_recover(self):
        self.written(LETTERS, chunk=1)
        self.changed(151)
        with Reader(self.path) as reader:
            region = Region(108, 152, Reason.DataHash)
            self.assertEqual(list(reader.recover()), [b"a", region, b"c"])
            first, told, second = reader.recover_chunks()
            self.assertEqual((list(first.items()), told, list(second.items())), ([(64, b"a")], region, [(152, b"c")]))

    def test_repair(self):
        self.written(LETTERS, chunk=1)
        self.changed(151)
        to = self.folder / "y.riegeli"
        to.write_bytes(b"old")
        repaired = riegeli.repair(self.path, to)
        self.assertEqual(repaired, (152, [Region(108, 152, Reason.DataHash)]))
        with Reader(to) as reader:
            self.assertEqual((list(reader), reader.size), ([b"a", b"c"], 152))
        with self.assertRaises(riegeli.Stopped) as stopped:
            riegeli.repair(self.path, to, most=43)
        self.assertEqual((str(stopped.exception), to.stat().st_size), ("stopped 108 152 DataHash", 108))
        self.assertEqual(riegeli.repair(self.path, to, most=44).bytes, 152)
        self.assertEqual(sorted(os.listdir(self.folder)), ["x.riegeli", "y.riegeli"])
        os.symlink("x.riegeli", self.folder / "link")
        with self.assertRaisesRegex(ValueError, "is the file that is read"):
            riegeli.repair(self.path, self.folder / "link")
        with Reader(self.path) as reader:
            self.path.rename(self.folder / "moved")
            with self.assertRaisesRegex(ValueError, "is the file that is read"):
                reader.repair(self.folder / "moved")
            self.written(LETTERS)
            self.assertEqual(reader.repair(self.path).bytes, 152)

    def test_a_repair_of_many_regions(self):
        self.written([b"%d" % i for i in range(5000)], chunk=1)
        data = bytearray(self.path.read_bytes())
        with Reader.over(bytes(data)) as reader:
            places = [chunk.end - 1 for chunk in reader.chunks()][::2]
        for place in places:
            data[place] ^= 1
        self.path.write_bytes(data)
        self.assertEqual(len(riegeli.repair(self.path, self.folder / "y").regions), len(places))
        with Reader(self.folder / "y") as reader:
            self.assertEqual(list(reader), [b"%d" % i for i in range(1, 5000, 2)])

    def test_a_repair_that_fails_leaves_nothing(self):
        self.written(LETTERS)
        with self.assertRaises(OSError):
            riegeli.repair(self.path, self.folder / "none" / "y")
        os.mkdir(self.folder / "y")
        with self.assertRaises(OSError):
            riegeli.repair(self.path, self.folder / "y")
        self.assertEqual(sorted(os.listdir(self.folder)), ["x.riegeli", "y"])
        os.mkfifo(self.folder / "pipe")
        with subprocess.Popen(["cat", self.folder / "pipe"]), self.assertRaises(OSError):
            riegeli.repair(self.path, self.folder / "pipe")
        self.assertTrue((self.folder / "pipe").is_fifo())


class Writing(Case):
    def test_chunks_are_laid_as_records_come(self):
        draw = random.Random(3)
        records = [drawn_bytes(draw, draw.randrange(5000)) for _ in range(3000)]
        self.written(records)
        self.assertGreater(self.path.stat().st_size, 7 << 20)
        with Writer(self.folder / "y") as writer:
            for record in records:
                writer.write(record)
            (made,) = self.folder.glob("y.*.new")
            self.assertGreater(made.stat().st_size, 3 << 20)
        self.assertEqual((self.folder / "y").read_bytes(), self.path.read_bytes())
        with Reader(self.path) as reader:
            self.assertEqual(list(reader), records)

    def test_flush(self):
        with Writer(self.path, chunk=100) as writer:
            writer.write_all([bytes(100)] * 3)
            (made,) = self.folder.glob("x.riegeli.*.new")
            self.assertEqual(made.stat().st_size, 0)
            writer.flush()
            with Reader(made) as reader:
                self.assertEqual(list(reader), [bytes(100)] * 2)
            writer.flush()
            writer.write(b"a")
        with self.assertRaisesRegex(ValueError, "closed"):
            writer.flush()
        with Reader(self.path) as reader:
            self.assertEqual(list(reader), [*[bytes(100)] * 3, b"a"])

    def test_long_records(self):
        records = [b"a" * (1 << 24), b"b", b"c" * (1 << 24), b""]
        self.written(records, chunk=100)
        with Reader(self.path) as reader:
            self.assertEqual(list(reader), records)
        with Writer(self.path) as writer:
            with self.assertRaisesRegex(ValueError, "at most 16777216 bytes"):
                writer.write(bytes((1 << 24) + 1))
            writer.write(b"a")
        self.assertEqual(riegeli.verify(self.path).records, 1)

    def test_padding(self):
        for pad, size in (None, 108), ("start", 65536 + 24 + 44), ("end", 65536), ("both", 131072):
            self.written([b"a"], pad=pad)
            self.assertEqual((pad, self.path.stat().st_size), (pad, size))
            with Reader(self.path) as reader:
                self.assertEqual(list(reader), [b"a"])

    def test_wrong_words(self):
        for options in {"chunk": 0}, {"chunk": (1 << 24) + 1}, {"every": 0}, {"every": (1 << 24) + 1}, {"pad": "none"}:
            with self.assertRaises(ValueError):
                Writer(self.path, **options)
        self.assertFalse(self.path.exists())
        with Writer(self.path) as writer:
            for record in "text", 3, None, [b"a"]:
                with self.assertRaises(TypeError):
                    writer.write(record)
            for record in bytearray(b"a"), memoryview(b"b"):
                writer.write(record)
            with self.assertRaises(TypeError):
                writer.write_all([b"c", "text", b"d"])
            with self.assertRaises(ZeroDivisionError):
                writer.write_all(bytes(1 // i) for i in (1, 0))
        with Reader(self.path) as reader:
            self.assertEqual(list(reader), [b"a", b"b", b"c", b"\0"])

    def test_an_error_within_leaves_what_was_there(self):
        for before in [], ["x.riegeli"]:
            with self.assertRaises(KeyError):
                with Writer(self.path) as writer:
                    writer.write_all([bytes(1 << 20)] * 10)
                    raise KeyError
            self.assertEqual(os.listdir(self.folder), before)
            with self.assertRaisesRegex(ValueError, "closed"):
                writer.write(b"a")
            self.written(LETTERS)
        with Reader(self.path) as reader:
            self.assertEqual(list(reader), LETTERS)

    def test_a_file_that_is_read_is_replaced(self):
        self.written([bytes(1 << 20)] * 8)
        # In another process, which the system would end if the file were emptied.
        program = f"""
import riegeli
records = iter(riegeli.Reader({str(self.path)!r}))
first = next(records)
with riegeli.Writer({str(self.path)!r}) as writer:
    writer.write(b"a")
assert list(records) == [first] * 7
"""
        environment = {**os.environ, "PYTHONPATH": str(Path(riegeli.__file__).parent)}
        self.assertEqual(subprocess.run([sys.executable, "-c", program], env=environment).returncode, 0)
        with Reader(self.path) as reader:
            self.assertEqual(list(reader), [b"a"])

    def test_a_link_and_a_mode_stay(self):
        self.written(LETTERS).chmod(0o640)
        link = self.folder / "link"
        link.symlink_to("x.riegeli")
        self.written([b"a"], link)
        self.assertTrue(link.is_symlink())
        self.assertEqual(self.path.stat().st_mode & 0o777, 0o640)
        with Reader(self.path) as reader:
            self.assertEqual(list(reader), [b"a"])

    def test_a_pipe_is_written(self):
        os.mkfifo(self.folder / "pipe")
        with subprocess.Popen(["cat", self.folder / "pipe"], stdout=subprocess.PIPE) as cat:
            self.written(LETTERS, self.folder / "pipe")
            self.assertEqual(cat.stdout.read(), self.written(LETTERS).read_bytes())
        self.assertTrue((self.folder / "pipe").is_fifo())

    def test_what_cannot_be_written(self):
        for path, kind in (self.folder, IsADirectoryError), (self.folder / "none" / "x", FileNotFoundError):
            with self.assertRaises(kind) as caught:
                Writer(path)
            self.assertEqual(caught.exception.filename, str(path))

    def test_after_close(self):
        writer = Writer(self.path)
        writer.close()
        writer.close()
        for call in lambda: writer.write(b"a"), lambda: writer.write_all([b"a"]), writer.__enter__:
            with self.assertRaisesRegex(ValueError, "closed"):
                call()

    def test_a_writer_that_was_not_closed_warns(self):
        with warnings.catch_warnings(record=True) as caught:
            warnings.simplefilter("default")
            Writer(self.path).write(b"a")
            gc.collect()
        self.assertEqual(len(caught), 1)
        self.assertRegex(str(caught[0].message), "x.riegeli.* was not closed, and its file is not made")
        self.assertEqual(os.listdir(self.folder), [])
        # Also without a filter, and at the end of the process.
        program = f"import riegeli; it = riegeli.Writer({str(self.path)!r}); it.write(b'a')"
        environment = {**os.environ, "PYTHONPATH": str(Path(riegeli.__file__).parent)}
        done = subprocess.run([sys.executable, "-c", program], env=environment, stderr=subprocess.PIPE)
        self.assertIn(b"was not closed, and its file is not made", done.stderr)
        self.assertEqual(os.listdir(self.folder), [])

    def test_a_full_disk(self):
        with self.assertRaises(OSError):
            with Writer("/dev/full") as writer:
                writer.write_all([bytes(1 << 20)] * 10)
        with self.assertRaises(OSError):
            self.written(LETTERS, "/dev/full")
        writer = Writer("/dev/full")
        with self.assertRaises(OSError):
            writer.write_all([bytes(1 << 20)] * 10)
        for call in lambda: writer.write(b"a"), writer.close:
            with self.assertRaisesRegex(ValueError, "an earlier call of this writer failed"):
                call()
        writer.close()
        self.assertTrue(Path("/dev/full").is_char_device())

    def test_several_threads_write(self):
        with Writer(self.path, chunk=1000) as writer:
            records = [[b"%d %d" % (i, k) + bytes(100) for k in range(20000)] for i in range(4)]
            threads = [threading.Thread(target=writer.write_all, args=[it]) for it in records]
            for thread in threads:
                thread.start()
            for thread in threads:
                thread.join()
        with Reader(self.path) as reader:
            read = list(reader)
        for i in range(4):
            self.assertEqual([it for it in read if it.startswith(b"%d " % i)], records[i])
        self.assertEqual(len(read), 80000)

    def test_no_record_is_lost_where_another_thread_closes(self):
        for _ in range(10):
            writer, written = Writer(self.path, chunk=10_000), [0] * 4

            def write(i):
                with contextlib.suppress(ValueError):
                    while True:
                        writer.write(b"%d" % i)
                        written[i] += 1

            threads = [threading.Thread(target=write, args=[i]) for i in range(4)]
            for thread in threads:
                thread.start()
            time.sleep(0.01)
            writer.close()
            for thread in threads:
                thread.join()
            with Reader(self.path) as reader:
                records = list(reader)
            self.assertEqual([records.count(b"%d" % i) for i in range(4)], written)


class Module(unittest.TestCase):
    def test_the_version_is_a_release(self):
        self.assertRegex(riegeli.__version__, r"\A\d+\.\d+\.\d+\Z")

    def test_the_manual_reads(self):
        done = subprocess.run(
            [sys.executable, "-m", "pydoc", "riegeli"], cwd=Path(riegeli.__file__).parent, stdout=subprocess.PIPE, check=True
        )
        for word in b"class Reader", b"class Writer", b"class Fault", b"verify(path", b"HighwayHash-64":
            self.assertIn(word, done.stdout)

    def test_a_library_that_is_not_there_is_told(self):
        environment = {**os.environ, "RIEGELI_LIBRARY": "/none", "PYTHONPATH": str(Path(riegeli.__file__).parent)}
        done = subprocess.run([sys.executable, "-c", "import riegeli"], env=environment, stderr=subprocess.PIPE)
        self.assertIn(b"ImportError: riegeli: the library could not be loaded", done.stderr)

    @unittest.skipUnless(shutil.which("cc"), "cc is not there")
    def test_an_older_library_is_told(self):
        with tempfile.TemporaryDirectory() as folder:
            (Path(folder) / "x.c").write_text("unsigned riegeli_version(void) { return 1; }")
            subprocess.run(["cc", "-shared", "-o", "x.so", "x.c"], cwd=folder, check=True)
            environment = {**os.environ, "RIEGELI_LIBRARY": f"{folder}/x.so", "PYTHONPATH": str(Path(riegeli.__file__).parent)}
            done = subprocess.run([sys.executable, "-c", "import riegeli"], env=environment, stderr=subprocess.PIPE)
        self.assertRegex(done.stderr, rb"ImportError: riegeli: the library could not be loaded \(.*undefined symbol: riegeli_hash")


if __name__ == "__main__":
    unittest.main()
