#!/usr/bin/env python3
"""Writes a field as a zarr array, each chunk a code, reads it on two worker processes, and writes it by xarray.

usage: zarr_field.py
"""
import itertools
import logging
import os
import sys
import tempfile
import time

from start import usage

import dask.array
import numpy
import xarray
import zarr
from dask.distributed import Client, LocalCluster
from rice121.codec import RiceCodec


class Field:
    """A zarr array whose exceptions name the chunk that can't be decoded."""

    def __init__(self, array):
        self.array, self.shape, self.dtype, self.ndim = array, array.shape, array.dtype, array.ndim

    def __getitem__(self, selection):
        try:
            return self.array[selection]
        except ValueError as error:
            name = self.damaged()
            if name is None:
                raise
            raise ValueError(f"chunk {name}: {error}") from error

    def damaged(self):
        """The name of the first chunk that can't be decoded, or None where all can."""
        for place in itertools.product(*map(range, self.array.cdata_shape)):
            try:
                self.array[tuple(slice(at * size, (at + 1) * size) for at, size in zip(place, self.array.chunks))]
            except ValueError:
                return ".".join(map(str, place))
        return None


def field():
    """Temperatures, say: smooth in space and time, with some noise, in steps of 1/100."""
    days, rows, columns = numpy.ogrid[0:64, 0:180, 0:360]
    noise = (days * 7919 + rows * 104729 + columns * 1299709) % 64
    waves = 1500 * numpy.sin(rows / 40) + 400 * numpy.cos(columns / 25) + 90 * numpy.sin(days / 5)
    return (27000 + waves + noise).astype("<u2")


def written(values, name, compressor):
    start = time.perf_counter()
    array = zarr.open(name, mode="w", shape=values.shape, chunks=(16, 90, 180), dtype=values.dtype, compressor=compressor)
    array[...] = values
    middle = time.perf_counter()
    same = numpy.array_equal(zarr.open(name, mode="r")[...], values)
    print(f"{name}: {array.nbytes_stored} bytes, written in {middle - start:.2f} s, read in {time.perf_counter() - middle:.2f} s: {same}")


def mean_over_time(name):
    """The mean, of tasks that two processes share."""
    array = Field(zarr.open(name, mode="r"))
    values = dask.array.from_array(array, chunks=array.array.chunks)
    return values.mean(axis=0).compute()


def by_xarray(values):
    """Kelvin, as xarray has them, and steps of 1/100 in the file."""
    kelvin = xarray.Dataset({"temperature": (("day", "row", "column"), values / 100)})
    coded = {"dtype": "uint16", "scale_factor": 0.01, "_FillValue": 65535, "compressor": RiceCodec("<u2"), "chunks": (16, 90, 180)}
    kelvin.to_zarr("kelvin.zarr", encoding={"temperature": coded})
    with xarray.open_zarr("kelvin.zarr") as back:
        print("by xarray:", numpy.array_equal(numpy.rint(back.temperature * 100), values), back.temperature.encoding["compressor"])


def main():
    values = field()
    print(f"{values.nbytes} bytes of samples")
    written(values, "rice.zarr", RiceCodec("<u2"))
    written(values, "default.zarr", "default")
    written(values, "none.zarr", None)
    by_xarray(values)
    cluster = LocalCluster(n_workers=2, threads_per_worker=1, processes=True, host="127.0.0.1", dashboard_address=None,
                           silence_logs=logging.CRITICAL)
    with cluster, Client(cluster) as client:
        print("workers:", len(client.scheduler_info()["workers"]))
        print("their mean over time is that of numpy:", numpy.allclose(mean_over_time("rice.zarr"), values.mean(axis=0)))
        with open("rice.zarr/2.1.0", "r+b") as chunk:
            chunk.truncate(5000)
        try:
            mean_over_time("rice.zarr")
        except ValueError as error:
            print("a chunk that was cut:", error)


if __name__ == "__main__":
    if len(sys.argv) != 1:
        usage()
    with tempfile.TemporaryDirectory() as folder:
        os.chdir(folder)
        main()
