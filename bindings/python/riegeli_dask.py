"""Riegeli/records files as bags of dask, so that many machines read and write them.

    import riegeli_dask

    bag = riegeli_dask.read(["a.riegeli", "b.riegeli"])
    riegeli_dask.write(bag.filter(wanted), "folder")

Each machine needs the modules `riegeli` and `riegeli_dask`, libriegeli, and the files under the same names. A task that is
done anew, as where a worker was killed, gives the same records and makes the same file.
"""
from __future__ import annotations

import glob
import os
import shutil
import uuid
from collections.abc import Iterable, Sequence

import dask
import dask.bag
import riegeli
from dask.highlevelgraph import HighLevelGraph

__all__ = ["WriteError", "read", "write"]

# Stands in a folder where `write` has put all files of a bag, as Hadoop and Spark have it.
_SUCCESS = "_SUCCESS"


class WriteError(riegeli.Error):
    """The `partition` of a bag, by its number from 0 on, could not be written, for what `__cause__` tells."""

    def __init__(self, partition: int, cause: Exception) -> None:
        super().__init__(partition, cause)
        self.partition = partition
        self.__cause__ = cause

    def __str__(self) -> str:
        return f"partition {self.partition}: {self.__cause__!r}"


def read(paths: str | os.PathLike[str] | Sequence[str | os.PathLike[str]], part_bytes: int = 1 << 26) -> dask.bag.Bag:
    """The records of files, one file behind another, as a bag with a partition for each `part_bytes` of a file.

    A partition has the records of the chunks that begin in its part, which `Reader.split` tells: no record is there twice,
    and none is left out. A fault of a file is raised as `riegeli.Fault` by whatever needs the partition that it is in.
    """
    if part_bytes < 1:
        raise ValueError(f"part_bytes is at least 1, and not {part_bytes}")
    if isinstance(paths, (str, os.PathLike)):
        paths = [paths]
    parts = []
    for path in map(os.path.abspath, paths):
        size = os.path.getsize(path)
        parts += [dask.delayed(_part)(path, size, at, part_bytes) for at in range(0, max(size, 1), part_bytes)]
    return dask.bag.from_delayed(parts)


def write(
    bag: dask.bag.Bag,
    folder: str | os.PathLike[str],
    chunk: int = 1 << 20,
    every: int | None = None,
    overwrite: bool = False,
) -> list[str]:
    """Makes a file in a folder for each partition of a bag of `bytes`, and gives their paths in the order of the bag.

    Each file begins and ends at a block, so that `riegeli join` puts them together without padding between them. The folder
    is made where it isn't there. The files are put into it once all of them are made, and last the empty file `_SUCCESS`:
    where one can't be made, none is. Files of an earlier call are refused, or with `overwrite` replaced.
    """
    folder = os.path.abspath(folder)
    if _files(folder) and not overwrite:
        raise FileExistsError(f"{folder!r} has files of parts already")
    digits = len(str(bag.npartitions))
    names = [f"part-{i:0{digits}}.riegeli" for i in range(bag.npartitions)]
    unfinished = os.path.join(folder, f".{uuid.uuid4().hex}")
    os.makedirs(unfinished)
    try:
        task = f"riegeli-write-{uuid.uuid4().hex}"
        tasks = {
            (task, i): (_made, (bag.name, i), i, os.path.join(unfinished, name), chunk, every) for i, name in enumerate(names)
        }
        dask.bag.Bag(HighLevelGraph.from_collections(task, tasks, [bag]), task, len(names)).compute()
        for path in _files(folder):
            os.unlink(path)
        for name in names:
            os.rename(os.path.join(unfinished, name), os.path.join(folder, name))
        open(os.path.join(folder, _SUCCESS), "x").close()
    finally:
        shutil.rmtree(unfinished, ignore_errors=True)
    return [os.path.join(folder, name) for name in names]


def _files(folder: str) -> list[str]:
    """What calls of `write` put into a folder: first the file that says that the others are whole."""
    return [path for name in (_SUCCESS, "part-*.riegeli") for path in glob.glob(os.path.join(glob.escape(folder), name))]


def _part(path: str, size: int, at: int, part_bytes: int) -> list[bytes]:
    with riegeli.Reader(path) as reader:
        if reader.size != size:
            raise ValueError(f"{path!r} had {size} bytes when the bag was made, and now has {reader.size}")
        return list(reader.records(reader.split(at), reader.split(at + part_bytes)))


def _made(records: Iterable[bytes], partition: int, path: str, chunk: int, every: int | None) -> list[str]:
    """Makes the file of a partition: another worker may make the same one."""
    try:
        with riegeli.Writer(path, chunk, every, pad="both") as writer:
            writer.write_all(records)
    except Exception as error:
        raise WriteError(partition, error) from error
    return [path]
