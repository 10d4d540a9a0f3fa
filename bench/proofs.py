#!/usr/bin/env python3
"""Lists what the functions of a crate cost its proof, dearest first, in seconds. It decides nothing.

    bench/proofs.py CRATE [COUNT]

The times are those at which `rt check --jobs 1`, in crates/CRATE, wrote what it had checked: a file a module, so that a function has
the time since the module before. They are right where the check began from nothing, in a fresh clone on a machine where no other
checkout has checked the crate: `rt check` begins with what that one left, and then old times stand among new ones. Beside the
sum stand its steps (`Lts`, which grow with what is alive at each and with what is dropped there) and the proof of its clauses
(`Proof`). COUNT is how many are listed; 30 if left out.
"""
import collections
import os
import sys

TOP = os.path.dirname(os.path.dirname(os.path.abspath(__file__)))


def modules(folder):
    """The checked modules below a folder, oldest first: when each was written, and its name."""
    found = []
    for at, _, names in os.walk(folder):
        for name in names:
            if name.endswith(".oantt"):
                found.append((os.stat(os.path.join(at, name)).st_mtime, name[:-len(".oantt")]))
    return sorted(found)


def costs(found):
    """For each function, or folder of proofs, the seconds of each kind of its modules."""
    seconds = collections.defaultdict(collections.Counter)
    for (before, _), (now, name) in zip(found, found[1:]):
        first, *parts = [part for part in name.split(".") if part != "decls"]
        if first.endswith("-proofs") and len(parts) > 1:
            seconds[".".join(parts[:-1])][parts[-1]] += now - before
    return seconds


def main():
    if len(sys.argv) not in (2, 3) or not all(count.isdigit() for count in sys.argv[2:]):
        sys.exit("usage: bench/proofs.py CRATE [COUNT]")
    found = modules(os.path.join(TOP, "crates", sys.argv[1], "out", "incremental"))
    if not found:
        sys.exit(f"bench: nothing is kept of {sys.argv[1]}: run 'rt check --jobs 1' in crates/{sys.argv[1]} first")
    seconds = costs(found)
    dearest = sorted(seconds, key=lambda name: -sum(seconds[name].values()))
    print(f"{sum(sum(it.values()) for it in seconds.values()):7.1f}  in all")
    for name in dearest[:int(sys.argv[2]) if len(sys.argv) == 3 else 30]:
        of = seconds[name]
        print(f"{sum(of.values()):7.1f}  steps {of['Lts']:6.1f}  proof {of['Proof']:6.1f}  {name}")


if __name__ == "__main__":
    main()
