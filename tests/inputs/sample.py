"""examples/make-session as a module: the sample session, and what it is made of."""

import importlib.util
import os
from functools import cache
from importlib.machinery import SourceFileLoader

from rattle import ROOT


@cache
def module():
    loader = SourceFileLoader("make_session", os.path.join(ROOT, "examples", "make-session"))
    made = importlib.util.module_from_spec(importlib.util.spec_from_loader(loader.name, loader))
    loader.exec_module(made)
    return made


def session():
    """The bytes of the sample session."""
    return module().session()


def places():
    """Each source's ICRS place, and the day for which it is turned."""
    return [(*place, module().PLACES_AT) for _, *place in module().SOURCES]
