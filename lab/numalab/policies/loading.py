"""Policies by their names: built-in ones, and classes of a user's file."""
import inspect
import os
import sys
import types
from contextlib import contextmanager

from ..notation import guessed
from ..traces import Bad, read_file
from .builtin import POLICIES
from .policy import Policy
from .spec import Parameters


def recipe_of(text):
    """What is needed to make a policy anywhere, as plain values: its label, its parameters, and its name or its source."""
    words = Parameters(text, "policy")
    path, sign, name = words.name.rpartition(":")
    recipe = {"label": " ".join([os.path.basename(words.name), *text.split()[1:]]), "parameters": words.given}
    if sign and path.endswith(".py"):
        recipe.update(path=path, name=name, source=read_file(path).decode("utf-8", "replace"))
    elif words.name in POLICIES:
        recipe.update(name=words.name)
    else:
        raise Bad(f"there is no policy {words.name}{guessed(words.name, POLICIES)}: --list names the built-in ones, and FILE.py:CLASS is one of yours")
    policy_of(recipe)
    return recipe


def value_of(text):
    """A parameter as a number, if it is one."""
    for kind in (int, float):
        try:
            return kind(text)
        except ValueError:
            pass
    return text


@contextmanager
def import_path(folder):
    """Lets a file import those beside it."""
    sys.path.insert(0, folder)
    try:
        yield
    finally:
        sys.path.remove(folder)


def class_of(recipe):
    if "source" not in recipe:
        return POLICIES[recipe["name"]]
    path = os.path.abspath(recipe["path"])
    module = types.ModuleType("numalab_policy_" + os.path.basename(path)[:-3])
    module.__file__, names = path, vars(module)
    sys.modules[module.__name__] = module
    try:
        with import_path(os.path.dirname(path)):
            exec(compile(recipe["source"], path, "exec"), names)
    except Exception as error:
        raise Bad(f"{recipe['path']}: {type(error).__name__}: {error}") from error
    found = names.get(recipe["name"])
    if not (inspect.isclass(found) and issubclass(found, Policy)):
        classes = [name for name, value in names.items() if inspect.isclass(value) and issubclass(value, Policy) and value is not Policy]
        raise Bad(f"{recipe['path']}: there is no class {recipe['name']} that is a Policy{guessed(recipe['name'], classes)}")
    return found


def policy_of(recipe):
    """The policy of a recipe."""
    kind, given = class_of(recipe), {key: value_of(value) for key, value in recipe["parameters"].items()}
    try:
        return kind(**given)
    except Bad:
        raise
    except Exception as error:
        raise Bad(f"policy {recipe['label']}: {type(error).__name__}: {error}") from error


def policies_of(texts):
    """The recipes of some policies, or of all built-in ones where none is named."""
    found = [recipe_of(text) for text in texts or POLICIES]
    labels = [recipe["label"] for recipe in found]
    for label in labels:
        if labels.count(label) > 1:
            raise Bad(f"the policy {label} is named twice")
    return found
