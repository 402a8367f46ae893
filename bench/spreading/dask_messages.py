#!/usr/bin/env python3
"""Judges files of messages on a table of signs by Dask, over the Python package.

    dask_messages.py [--scheduler ADDRESS | --processes N] SIGN_FOLDER MESSAGE_FILE ...

Each line of a file is a message. It writes how many messages each sign refuses, by the reason.
"""
import argparse
import os
from pathlib import Path

import dask.bag
import dask.dataframe
import numpy
import pandas
from dask.distributed import Client, LocalCluster

from latsefur import MultiError, Sign

# The reasons, by the number of the error; the first is that there is none.
REASONS = ["accepted", *(MultiError(number).name.lower() for number in range(1, 16))]
COLUMNS = {"file": "object", "line": "uint32", "sign": "category", "reason": "category", "at": "uint32", "pages": "uint8"}


def judged(path, signs):
    """A data frame of the verdicts of all signs on the messages of a file, with a row for each sign and message. Lines count from 1, and the
    octet `at` from 0."""
    *messages, _ = Path(path).read_bytes().split(b"\n")
    told = numpy.concatenate([sign.check_array(messages) for sign in signs.values()])
    names, count = list(signs), len(messages)
    return pandas.DataFrame({
        "file": str(path),
        "line": numpy.tile(numpy.arange(1, count + 1, dtype="uint32"), len(names)),
        "sign": pandas.Categorical.from_codes(numpy.repeat(numpy.arange(len(names), dtype="int16"), count), names),
        "reason": pandas.Categorical.from_codes(told["error"].astype("int8"), REASONS),
        "at": told["at"].astype("uint32"),
        "pages": told["pages"],
    })


def verdicts(signs, paths):
    """The verdicts on all files, as a data frame of Dask with a part for each file.

    The table of signs is a value of the graph, so each worker is sent it once and reads it once; and unlike what `Client.scatter` has sent, it
    can be sent again if the workers that have it are gone.
    """
    table = dask.delayed(signs, traverse=False)
    files = dask.bag.from_sequence(paths, npartitions=len(paths))
    parts = [dask.delayed(judged_part)(part, table) for part in files.to_delayed()]
    kinds = {"sign": pandas.CategoricalDtype(list(signs)), "reason": pandas.CategoricalDtype(REASONS)}
    meta = pandas.DataFrame({name: pandas.Series(dtype=kinds.get(name, kind)) for name, kind in COLUMNS.items()})
    return dask.dataframe.from_delayed(parts, meta=meta, verify_meta=False)


def judged_part(paths, signs):
    """The same of a part of a bag, which has one file."""
    (path,) = paths
    return judged(path, signs)


def table_of_signs(folder):
    return {path.stem: Sign.from_file(path) for path in sorted(Path(folder).glob("*.toml"))}


def main():
    parser = argparse.ArgumentParser()
    parser.add_argument("--scheduler")
    parser.add_argument("--processes", type=int, default=os.cpu_count())
    parser.add_argument("signs", type=Path)
    parser.add_argument("messages", nargs="+")
    words = parser.parse_args()
    cluster = words.scheduler or LocalCluster(n_workers=words.processes, threads_per_worker=1, dashboard_address=None)
    with Client(cluster):
        frame = verdicts(table_of_signs(words.signs), words.messages)
        refused = frame[frame.reason != "accepted"]
        counts = refused.groupby(["sign", "reason"], observed=True).size().compute()
        print(counts.sort_index().to_string())


if __name__ == "__main__":
    main()
