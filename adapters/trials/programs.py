"""An adapter's own classes, for trials that call them."""
import importlib.machinery
import importlib.util
import os
import sys


def load(path):
    """The module that the program at this path is."""
    sys.path.insert(0, os.path.dirname(path))
    sys.dont_write_bytecode = True
    loader = importlib.machinery.SourceFileLoader("program", path)
    program = importlib.util.module_from_spec(importlib.util.spec_from_loader("program", loader))
    loader.exec_module(program)
    return program


CLASSES = {"etcd": "Etcd", "postgres": "Postgres", "kafka": "Kafka"}


def store_of(kind, words):
    """The store that an adapter's command line names: its program is the first of the words."""
    program = load(words[0])
    return getattr(program, CLASSES[kind])(program.make_parser().parse_args([*words[1:], "--timeout", "30", "dump"]))
