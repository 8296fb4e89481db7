#!/usr/bin/env python3
"""Computes over a zarr array of codes that is larger than a worker's memory, on three worker processes, and kills one of them.

usage: killed_worker.py
"""
import logging
import os
import signal
import sys
import tempfile
import time

from start import usage

import dask.array
import numpy
import zarr
from dask.distributed import Client, LocalCluster, futures_of
from rice121.codec import RiceCodec

ROWS, COLUMNS, PIECE = 32768, 8192, 512  # of two bytes: 512 MiB
MEMORY = 384 * 2**20  # of a worker


def rows_of(number):
    """A piece of the field: smooth, with some noise."""
    rows, columns = numpy.ogrid[number * PIECE : (number + 1) * PIECE, 0:COLUMNS]
    noise = (rows * 7919 + columns * 104729) % 61
    return (20000 + 9000 * numpy.sin(rows / 900) + 500 * numpy.cos(columns / 70) + noise).astype("<u2")


def write(name):
    """Writes the field piece by piece, and returns the sum of all samples."""
    array = zarr.open(name, mode="w", shape=(ROWS, COLUMNS), chunks=(PIECE, COLUMNS), dtype="<u2", compressor=RiceCodec("<u2"))
    total = 0
    for number in range(ROWS // PIECE):
        values = rows_of(number)
        array[number * PIECE : (number + 1) * PIECE] = values
        total += int(values.sum(dtype=numpy.int64))
    print(f"{array.nbytes} bytes of samples, {array.nbytes_stored / array.nbytes:.2f} of that stored, {MEMORY} bytes of memory a worker")
    return total


def main():
    total = write("field.zarr")
    cluster = LocalCluster(n_workers=3, threads_per_worker=1, memory_limit=MEMORY, host="127.0.0.1", dashboard_address=None,
                           silence_logs=logging.CRITICAL)
    with cluster, Client(cluster) as client:
        field = dask.array.from_zarr("field.zarr").astype("int64")
        sums = client.persist(field.sum(axis=1))
        while sum(it.status == "finished" for it in futures_of(sums)) < 4:
            time.sleep(0.01)
        worker, process = next(iter(client.run(os.getpid).items()))
        os.kill(process, signal.SIGKILL)
        done = sum(it.status == "finished" for it in futures_of(sums))
        print("a worker was killed before all was done:", done < len(futures_of(sums)))
        print("the sum is that of all samples:", int(sums.sum().compute()) == total)


if __name__ == "__main__":
    if len(sys.argv) != 1:
        usage()
    with tempfile.TemporaryDirectory() as folder:
        os.chdir(folder)
        main()
