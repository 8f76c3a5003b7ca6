"""The folders into which px86-crash writes. It makes their files anew, so they are to have no other's."""

from __future__ import annotations

import os
import shutil

from .faults import Failed

# A folder of px86-crash has this file.
MARK = ".px86-crash"


def make(path: str) -> None:
    """Makes a folder, or takes one that is empty or was made here before."""
    mark = os.path.join(path, MARK)
    try:
        os.makedirs(path, exist_ok=True)
        if not os.path.lexists(mark):
            if os.listdir(path):
                raise Failed(f"{path} is not empty, and px86-crash did not make it (it has no {MARK}): name another --out")
            with open(mark, "xb"):
                pass
    except OSError as error:
        raise Failed(f"{path}: {error.strerror}") from error


def remove(path: str) -> None:
    """Removes a folder that was made here, if it is there."""
    if os.path.lexists(os.path.join(path, MARK)):
        shutil.rmtree(path)


def refuse_pool_within(pool: str, folder: str) -> None:
    """The files of the folder are removed, and the pool is to stay as it is."""
    real = os.path.realpath(folder)
    if os.path.commonpath([os.path.realpath(pool), real]) == real:
        raise Failed(f"{pool} lies in {folder}, whose files are made anew: take a copy elsewhere, or name another --out")
