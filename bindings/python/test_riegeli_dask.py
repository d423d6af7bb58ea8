"""Tests of the module `riegeli_dask`: with a cluster of processes, some of which are killed.

TRY_MEGABYTES says how large their file is. Where RIEGELI_PROGRAM names the program, what was written is joined and shown by it."""
import hashlib
import os
import pickle
import signal
import subprocess
import sys
import tempfile
import threading
import time
import unittest
from pathlib import Path

sys.path.insert(0, str(Path(__file__).resolve().parent))
import dask  # noqa: E402
import dask.bag  # noqa: E402
import riegeli  # noqa: E402
import riegeli_dask  # noqa: E402
from dask.distributed import Client, LocalCluster  # noqa: E402


MEGABYTES = int(os.environ.get("TRY_MEGABYTES", 32))
PROGRAM = os.environ.get("RIEGELI_PROGRAM")


def shown(path):
    """A hash of what the program shows of a file."""
    told = hashlib.sha256()
    with subprocess.Popen([PROGRAM, "show", path], stdout=subprocess.PIPE) as show:
        while block := show.stdout.read(1 << 20):
            told.update(block)
    assert show.returncode == 0
    return told.hexdigest()


def slowly(record):
    """The record, a little later for some, so that workers are killed in between."""
    if record.endswith(b"000"):
        time.sleep(0.01)
    return record


class Case(unittest.TestCase):
    def setUp(self):
        folder = tempfile.TemporaryDirectory()
        self.addCleanup(folder.cleanup)
        self.folder = Path(folder.name)

    def written(self, name, records, **options):
        with riegeli.Writer(self.folder / name, **options) as writer:
            writer.write_all(records)
        return self.folder / name


class Alone(Case):
    """With the scheduler of threads, which needs no cluster."""

    def setUp(self):
        super().setUp()
        dask.config.set(scheduler="threads")

    def test_parts_have_each_record_once(self):
        records = [b"%d" % i * (i % 50) for i in range(20000)]
        path = self.written("x", records, chunk=3000)
        size = path.stat().st_size
        for part_bytes in 5000, 65536, 100_001, size, 2 * size:
            bag = riegeli_dask.read(path, part_bytes)
            self.assertEqual(bag.npartitions, -(-size // part_bytes))
            self.assertEqual(bag.compute(), records)

    def test_several_files_and_none(self):
        paths = [self.written(name, [name.encode(), b""]) for name in "abc"] + [self.written("none", [])]
        self.assertEqual(riegeli_dask.read(paths).compute(), [b"a", b"", b"b", b"", b"c", b""])

    def test_a_fault_is_raised(self):
        path = self.written("x", [bytes(1000)] * 1000, chunk=5000)
        data = bytearray(path.read_bytes())
        data[500_000] ^= 1
        path.write_bytes(data)
        with self.assertRaises(riegeli.Fault) as caught:
            riegeli_dask.read(path, 100_000).compute()
        with self.assertRaises(riegeli.Fault) as wanted:
            riegeli.verify(path)
        self.assertEqual(str(caught.exception), str(wanted.exception))
        (self.folder / "empty").touch()
        with self.assertRaises(riegeli.Fault):
            riegeli_dask.read(self.folder / "empty").compute()

    def test_a_file_that_grew_is_refused(self):
        bag = riegeli_dask.read(self.written("x", [b"a"]))
        self.written("x", [b"a", b"b"])
        with self.assertRaisesRegex(ValueError, "had 108 bytes when the bag was made"):
            bag.compute()

    def test_write(self):
        records = [b"%d" % i for i in range(1000)]
        paths = riegeli_dask.write(dask.bag.from_sequence(records, npartitions=12), self.folder / "made", every=7)
        self.assertEqual(sorted(paths), paths)
        self.assertEqual([Path(path).name for path in paths][:2], ["part-00.riegeli", "part-01.riegeli"])
        self.assertEqual(sorted(os.listdir(self.folder / "made")), ["_SUCCESS", *[Path(path).name for path in paths]])
        for path in paths:
            self.assertEqual(os.path.getsize(path) % 65536, 0)
        self.assertEqual(riegeli_dask.read(paths).compute(), records)
        with self.assertRaises(FileExistsError):
            riegeli_dask.write(dask.bag.from_sequence(records), self.folder / "made")

    def test_write_over_an_earlier_call(self):
        made = self.folder / "made"
        riegeli_dask.write(dask.bag.from_sequence([b"%d" % i for i in range(12)], npartitions=12), made)
        (made / "another file").touch()
        # What is written may be read from the files that are replaced.
        bag = riegeli_dask.read(sorted(made.glob("part-*"))).repartition(npartitions=3)
        paths = riegeli_dask.write(bag, made, overwrite=True)
        self.assertEqual(sorted(os.listdir(made)), ["_SUCCESS", "another file", *[Path(path).name for path in paths]])
        self.assertEqual(riegeli_dask.read(paths).compute(), [b"%d" % i for i in range(12)])

    def test_a_write_that_fails_leaves_what_was_there(self):
        made = self.folder / "made"
        records = [b"%d" % i for i in range(100)]
        wrong = dask.bag.from_sequence([*records, "text"], npartitions=10)
        with self.assertRaises(riegeli_dask.WriteError) as caught:
            riegeli_dask.write(wrong, made)
        error = pickle.loads(pickle.dumps(caught.exception))
        self.assertEqual((error.partition, type(error.__cause__)), (wrong.npartitions - 1, TypeError))
        self.assertRegex(str(error), rf"\Apartition {error.partition}: TypeError\(.*'str'")
        self.assertEqual(os.listdir(made), [])
        paths = riegeli_dask.write(dask.bag.from_sequence(records, npartitions=5), made)
        before = sorted(os.listdir(made))
        with self.assertRaises(riegeli_dask.WriteError) as caught:
            riegeli_dask.write(riegeli_dask.read(paths).map(lambda it: it[10 - int(it)]), made, overwrite=True)
        self.assertIsInstance(caught.exception.__cause__, IndexError)
        self.assertEqual(sorted(os.listdir(made)), before)
        self.assertEqual(riegeli_dask.read(paths).compute(), records)


class Cluster(Case):
    """With four processes on this machine, of which two are killed while they work."""

    def test_killed_workers(self):
        count = (MEGABYTES << 20) // 100
        path = self.written("x", (b"%0100d" % i for i in range(count)))
        part = -(-path.stat().st_size // 16)
        dask.config.set({"distributed.scheduler.allowed-failures": 100})
        with LocalCluster(n_workers=4, threads_per_worker=1, dashboard_address=None) as cluster, Client(cluster) as client:
            dask.config.set(scheduler=client.get)
            bag = riegeli_dask.read(path, part)
            self.assertEqual(bag.npartitions, 16)
            killed = []

            def kill():
                """Kills two of the four workers: one once two files are made, and another one once six are."""
                for process, files in zip(sorted(client.run(os.getpid).values()), (2, 6)):
                    while len(list(self.folder.glob("made/.*/part-*.riegeli"))) < files:
                        time.sleep(0.01)
                    os.kill(process, signal.SIGKILL)
                    killed.append(process)

            killer = threading.Thread(target=kill, daemon=True)
            killer.start()
            made = riegeli_dask.write(bag.map(slowly), self.folder / "made")
        self.assertEqual((len(killed), len(made)), (2, 16))
        self.assertEqual(sorted(os.listdir(self.folder / "made")), ["_SUCCESS", *[os.path.basename(name) for name in made]])
        read = (record for name in made for record in riegeli.Reader(name))
        for i, record in enumerate(read):
            self.assertEqual(record, b"%0100d" % i)
        self.assertEqual(i + 1, count)
        if PROGRAM:
            subprocess.run([PROGRAM, "join", *made, self.folder / "joined"], stdout=subprocess.DEVNULL, check=True)
            self.assertEqual(shown(self.folder / "joined"), shown(path))


if __name__ == "__main__":
    unittest.main()
