"""Wrong programs made by one edit each, and how many cases tell them from the right one. For the mutants.py of each second program."""
import sys
import types


def with_edit(right, source, words, wrong):
    """The module `right` with other words in its source."""
    name = right.__name__
    if source.count(words) != 1:
        sys.exit(f"these words must stand once in {name}.py:\n{words}")
    module = types.ModuleType(name)
    module.__file__ = right.__file__
    sys.modules[name] = module
    exec(compile(source.replace(words, wrong), f"{name}.py", "exec"), module.__dict__)
    sys.modules[name] = right
    return module


def run(program, edits, cases, answers_of):
    """Prints for each edit how many cases find it, then those that none finds; these make the exit code 1."""
    with open(program.__file__) as file:
        source = file.read()
    right = answers_of(cases, program)
    missed = []
    for what, words, wrong in edits:
        other = answers_of(cases, with_edit(program, source, words, wrong))
        found = sum(a != b for a, b in zip(right, other))
        print(f"{found:6} of {len(right)}  {what}")
        if found == 0:
            missed.append(what)
    print(f"{len(edits) - len(missed)} wrong programs found, {len(missed)} missed")
    for what in missed:
        print("missed:", what)
    sys.exit(bool(missed))
