#!/usr/bin/env python3
"""Runs the demos of README.md, each a line that begins with `$`, at the top of the repository, and compares what they print, standard error too, with the lines behind it: run `python3 tests/readme.py`.
The programs are built first, where they are not. The last line is 'N passed, M failed'."""
import os
import subprocess
import sys

TOP = os.path.join(os.path.dirname(os.path.abspath(__file__)), '..')
INDENT = '    '


def demos(lines):
    """Each command, and the lines that stand behind it in its block."""
    command, shown = None, []
    for line in [*lines, '']:
        if line.startswith(INDENT + '$ ') or not line.startswith(INDENT):
            if command is not None:
                yield command, shown
            command, shown = (line[len(INDENT) + 2:], []) if line.startswith(INDENT) else (None, [])
        elif command is not None:
            shown.append(line[len(INDENT):])


def main():
    with open(os.path.join(TOP, 'README.md'), encoding='utf-8') as text:
        found = list(demos(text.read().split('\n')))
    failed = 0
    for name in ('stream', 'limiter', 'lookup'):
        subprocess.run([os.path.join(TOP, 'tools', 'built'), name], stdout=subprocess.DEVNULL, check=True)
    for command, shown in found:
        result = subprocess.run(['sh', '-c', command], cwd=TOP, stdin=subprocess.DEVNULL, stdout=subprocess.PIPE, stderr=subprocess.STDOUT)
        printed = result.stdout.decode().splitlines()
        if printed != shown:
            failed += 1
            print(f'failed: {command}', *printed, sep='\n  ')
    if not found:
        failed += 1
        print('failed: README.md has no demo')
    print(f'{len(found) - failed} passed, {failed} failed')
    return 1 if failed else 0


if __name__ == '__main__':
    sys.exit(main())
