"""The models beside this folder, each loaded once."""
import importlib.machinery
import importlib.util
import os
import sys

HERE = os.path.dirname(os.path.abspath(__file__))


def load(name):
    """The model of this name, as a module."""
    sys.dont_write_bytecode = True
    loader = importlib.machinery.SourceFileLoader(name, os.path.join(HERE, "..", name))
    module = importlib.util.module_from_spec(importlib.util.spec_from_loader(name, loader))
    loader.exec_module(module)
    return module


certificates = load("certificate_model")
completions = load("completion_model")
datasets = load("dataset_model")
weights = load("weight_model")
grids = load("random_cases")
Refused = grids.Refused
