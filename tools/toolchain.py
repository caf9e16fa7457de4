"""The toolchain's `rt` as a module, where each crate's checksum and the list of the libraries below it are computed once.

The toolchain computes that list again along each way that leads to a crate, some 900,000 ways to `mock`, which takes
minutes; one as old as `rattle-kit-13b` does so with the checksums, too. What is proved and tried is the same.
"""
import importlib.machinery
import importlib.util
import os
import shutil
import sys


def loaded():
    """`rt` as a module, as it is."""
    rt = os.path.realpath(shutil.which("rt") or sys.exit("tools: `rt` isn't on the PATH"))
    loader = importlib.machinery.SourceFileLoader("rt_command", rt)
    made = importlib.util.module_from_spec(importlib.util.spec_from_loader("rt_command", loader))
    sys.modules["rt_command"] = made
    loader.exec_module(made)
    return made


def once_each(name, compute):
    """A method of a crate that takes no arguments, computed once for each crate."""

    def found(crate):
        if name not in crate.__dict__:
            crate.__dict__[name] = compute(crate)
        return crate.__dict__[name]

    return found


def has_stamps_once(rt):
    """Whether the toolchain computes each checksum once by itself."""
    return hasattr(rt, "stamp_once")


def quick():
    """`rt` as a module that computes them once."""
    rt = loaded()
    rt.rtlib.Crate.below = once_each("known_below", rt.rtlib.Crate.below)
    if not has_stamps_once(rt):
        rt.rtlib.Crate.stamp = once_each("known_stamp", rt.rtlib.Crate.stamp)
    return rt
