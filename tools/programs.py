"""Programs of crates.txt: they are built where they are not yet, and run on bytes."""
import os
import subprocess

from lines import Failed

TOOLS = os.path.dirname(os.path.abspath(__file__))


def path_of(name):
    """The path of a program, which tools/built builds first where it has to: that says itself what it does and what went wrong."""
    try:
        said = subprocess.run([os.path.join(TOOLS, 'built'), name], stdin=subprocess.DEVNULL, stdout=subprocess.PIPE)
    except OSError as why:
        raise Failed(f'tools/built: {why.strerror}') from None
    if said.returncode != 0:
        raise Failed(None)
    return os.fsdecode(said.stdout).rstrip('\n')


def output_of(path, data, count):
    """The lines that the program prints of these bytes, of which there must be so many."""
    try:
        said = subprocess.run([path], input=data, capture_output=True)
    except OSError as why:
        raise Failed(f'{path}: {why.strerror}') from None
    if said.returncode == 127:
        raise Failed(f'{path} ended with 127: it is built for x86-64-v2, and this processor is older')
    if said.returncode != 0:
        raise Failed(f'{path} ended with {said.returncode}')
    lines = said.stdout.decode().splitlines()
    if len(lines) != count:
        raise Failed(f'{path} printed {len(lines)} lines, and not {count}')
    return lines
