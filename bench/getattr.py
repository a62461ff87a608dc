#!/usr/bin/env python3
"""Feeds GETATTR records through `nfsd --stdio` and prints calls a second. A benchmark, not a test.

usage: bench/getattr.py [COUNT]
"""
import nfsd


def main():
    words = nfsd.parser(__doc__)
    words.add_argument("count", metavar="COUNT", nargs="?", type=int, default=100_000, help="how many calls (100000)")
    count = words.parse_args().count
    records = (nfsd.call(xid, nfsd.GETATTR, nfsd.ROOT) for xid in range(count))
    passed = nfsd.seconds(records, count * nfsd.SHOWN)
    print(f"{count} calls in {passed:.3f} s: {count / passed:,.0f} calls a second")


if __name__ == "__main__":
    main()
