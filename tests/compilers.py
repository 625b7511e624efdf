"""Which compilers are here. Tests use them where they are, and say in a line what they leave out where they are not: nothing but the kit and Python is needed."""
import shutil

# rustc links with cc
NEEDS = {'gcc': ['gcc'], 'g++': ['g++'], 'rustc': ['rustc', 'cc']}


def lacking(compiler):
    """What of a compiler is not on the PATH."""
    return [name for name in NEEDS[compiler] if not shutil.which(name)]


def left_out(missing, what):
    """Says that `what` is left out, where something is missing; whether it is."""
    if missing:
        print(f'left out, no {" and no ".join(missing)} here: {what}')
    return bool(missing)


def here(compiler, what):
    return not left_out(lacking(compiler), what)
