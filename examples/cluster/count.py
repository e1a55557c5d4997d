"""Counts the certificates of files by the year in which they expire, and those that aren't DER by
what is wrong with them, on the workers of a cluster (dask.distributed). Prints the sums as JSON.

python3 count.py tcp://HOST:8786 certificates.asn1 RESULTS FILE..

A FILE has certificates with nothing between them, as `cat *.der` writes them; @LIST are the names
in the lines of the file LIST. The workers need the module soqavise, and the files under the same
names. What is counted in a file is written once, to RESULTS/NAME.json, and the sums are over these.
A file that has one isn't read again: after a run that ends early the next one reads the others.
"""
import argparse
import collections
import json
import os
import pathlib
import re
import sys
import time
import uuid

from dask.distributed import Client, as_completed
from soqavise import Refused, Rules, Schema, Type, encodings, fault

# How many octets are read at once, and how many a message may have. It bounds a worker's memory.
PIECE = 1 << 20


def messages(file):
    """Yields the encodings of a file, which may be BER that isn't DER, each with its first byte.

    Raises Refused if what follows isn't a whole encoding of at most PIECE octets; `offset` is its
    first byte.
    """
    rest, start = b"", 0
    while len(rest) <= PIECE and (piece := file.read(PIECE)):
        rest, end = rest + piece, 0
        try:
            for found in encodings(Rules.BER, rest):
                yield start + end, found.whole
                end += len(found.whole)
        except Refused:
            pass  # the next piece may have its end
        rest, start = rest[end:], start + end
    if rest:
        error = fault(Type.ANY, Rules.BER, rest) or Refused("not a whole encoding")
        raise Refused(str(error), error.kind, start)


def year_of_expiry(schema, octets):
    """Returns the year of notAfter. A UTCTime has two digits of it, 50 to 99 for 1950 to 1999
    (RFC 5280 4.1.2.5.1)."""
    end = schema.find(octets, "tbsCertificate.validity.notAfter")
    if end.tag_number == 24:
        return int(end.contents[:4])
    year = int(end.contents[:2])
    return 1900 + year if year >= 50 else 2000 + year


def cause(error):
    """Returns the kind of an error and the path to the part, without positions in lists: there are
    no more causes than kinds times parts of the type, whatever the files have."""
    path = re.sub("[0-9]+]", "]", error.path)
    return f"{getattr(error.kind, 'name', error.kind)} {path}".strip()


def counted(file, schema):
    """Returns what is counted in a file, the place of the first message of each cause, and from
    which byte on the file can't be split into messages."""
    years, refused, first, unread = collections.Counter(), collections.Counter(), {}, {}
    try:
        for start, octets in messages(file):
            try:
                schema.check(octets)
                years[year_of_expiry(schema, octets)] += 1
            except Refused as error:
                refused[cause(error)] += 1
                first.setdefault(cause(error), f"{file.name}, byte {start}")
    except Refused as error:
        octets = os.fstat(file.fileno()).st_size - error.offset
        unread[file.name] = {"byte": error.offset, "octets": octets, "cause": cause(error)}
    return {"years": years, "refused": refused, "first": first, "unread": unread}


def state(path):
    """Returns what is another after a file has changed."""
    found = os.stat(path)
    return [found.st_size, found.st_mtime_ns]


def count_file(path, results, schema_octets):
    """Counts a file and writes its result, in one step: nobody reads half of one, and a worker that
    does what another one has done changes nothing. This runs on the workers."""
    before = state(path)
    with open(path, "rb") as file:
        result = counted(file, Schema.from_octets(schema_octets))
    name = os.path.basename(path)
    temporary = os.path.join(results, f".{name}.{uuid.uuid4().hex}")
    with open(temporary, "w", encoding="utf-8") as file:
        json.dump({"state": before, **result}, file)
    os.replace(temporary, os.path.join(results, f"{name}.json"))


def result_of(path, results):
    """Returns the result of a file as it is now, or None if there is none, or no whole one, as a
    machine may leave it that loses its power."""
    try:
        file = pathlib.Path(results, f"{os.path.basename(path)}.json")
        result = json.loads(file.read_text("utf-8"))
        return result if result["state"] == state(path) else None
    except (FileNotFoundError, ValueError):
        return None


def added(results):
    """Returns the sum of results."""
    years, refused, first, unread = collections.Counter(), collections.Counter(), {}, {}
    for result in results:
        years.update(result["years"])
        refused.update(result["refused"])
        first = {**result["first"], **first}
        unread.update(result["unread"])
    years = dict(sorted(years.items()))
    return {"years": years, "refused": refused, "first": first, "unread": unread}


def run_on_workers(scheduler, paths, results, schema):
    """Has the workers count files. Prints how long it takes, and why a file can't be read. The
    files of a worker that ends are given to others."""
    with Client(scheduler) as client:
        client.wait_for_workers(1, timeout=60)
        start = time.monotonic()
        same = {"results": results, "schema_octets": schema.octets}
        for future in as_completed(client.map(count_file, paths, pure=False, **same)):
            if future.status != "finished":
                print(f"count: {future.exception()}", file=sys.stderr)
        seconds = time.monotonic() - start
    print(f"count: {len(paths)} files in {seconds:.2f} seconds", file=sys.stderr)


def arguments():
    """Returns the arguments. Two files of one name would have one result, and are refused."""
    parser = argparse.ArgumentParser(
        description=__doc__,
        formatter_class=argparse.RawTextHelpFormatter,
        fromfile_prefix_chars="@",
    )
    parser.add_argument("scheduler")
    parser.add_argument("modules", type=pathlib.Path)
    parser.add_argument("results", type=os.path.abspath)
    parser.add_argument("files", type=os.path.abspath, nargs="+", metavar="file")
    call = parser.parse_args()
    name, number = collections.Counter(map(os.path.basename, call.files)).most_common(1)[0]
    if number > 1:
        parser.error(f"{number} files have the name {name}")
    return call


def main():
    call = arguments()
    schema = Schema({call.modules.name: call.modules.read_text("utf-8")}, "Certificate")
    os.makedirs(call.results, exist_ok=True)
    left = [path for path in call.files if result_of(path, call.results) is None]
    if left:
        run_on_workers(call.scheduler, left, call.results, schema)
    found = {path: result_of(path, call.results) for path in call.files}
    print(json.dumps(added(filter(None, found.values())), indent=1))
    missing = [path for path, result in found.items() if result is None]
    if missing:
        print("count: not counted:", *missing, sep="\n", file=sys.stderr)
    return 1 if missing else 0


if __name__ == "__main__":
    sys.exit(main())
