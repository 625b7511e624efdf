"""What a test program reads and must print, stored in its crate: written, or compared with what its cases make now."""
import os, sys


def settle(crate, steps, out, words):
    """With --write the crate's stdin and stdout are written, and `words` printed; else they are compared, and the program ends with 0 only where both are the same."""
    assert len(steps) <= 65536, len(steps)
    files = ((os.path.join(crate, 'stdin'), steps), (os.path.join(crate, 'stdout'), out.encode()))
    if sys.argv[1:] == ['--write']:
        for path, data in files:
            open(path, 'wb').write(data)
        print(words)
        return
    same = [open(path, 'rb').read() == data for path, data in files]
    print(f'{sum(same)} passed, {len(same) - sum(same)} failed')
    sys.exit(0 if all(same) else 1)
