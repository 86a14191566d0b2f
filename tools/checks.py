"""What the tests of the tools have in common: a tool is run on bytes, and what it wrote and said is compared. The last line of a test is 'N passed, M failed'."""
import os
import subprocess
import sys

HERE = os.path.dirname(os.path.abspath(__file__))


class Checks:
    """How many checks have passed and failed so far."""

    def __init__(self):
        self.passed = self.failed = 0

    def check(self, what, good, seen):
        if good:
            self.passed += 1
        else:
            self.failed += 1
            print('failed:', what, '\n ', str(seen)[:2000])

    def end(self):
        print(f'{self.passed} passed, {self.failed} failed')
        sys.exit(1 if self.failed else 0)


def command_of(tool, arguments):
    """The command of a tool of this folder; a script of Python's is run by the Python that runs the test."""
    path = os.path.join(HERE, tool)
    return [sys.executable, path, *arguments] if tool.endswith('.py') else [path, *arguments]


def run(tool, arguments, text=b''):
    """A tool, run on this text."""
    return subprocess.run(command_of(tool, arguments), input=text, capture_output=True)


def right(result, code, out, messages):
    """It ended with this status, wrote these bytes, and said one line for each message, which holds it."""
    said = result.stderr.decode().splitlines()
    return (result.returncode == code and result.stdout == out
            and len(said) == len(messages) and all(m in s for m, s in zip(messages, said)))


def one_line(result, code, message):
    """It ended with this status, wrote nothing, and said one line, which holds the message."""
    return right(result, code, b'', [message])


def fails_to_write(checks, tool, arguments, text=b''):
    """Where its output is full or closed the tool says so in one line."""
    command = command_of(tool, arguments)
    with open('/dev/full', 'wb') as full:
        result = subprocess.run(command, input=text, stdout=full, stderr=subprocess.PIPE)
    checks.check((tool, 'no room'), result.returncode == 1 and b'standard output: No space left' in result.stderr and result.stderr.count(b'\n') == 1, result)
    result = subprocess.run(['sh', '-c', 'exec "$@" >&-', 'sh', *command], input=text, stderr=subprocess.PIPE)
    checks.check((tool, 'closed'), result.returncode == 1 and b'standard output: it is closed' in result.stderr and result.stderr.count(b'\n') == 1, result)


def refuses_arguments(checks, tool, usage, *wrong):
    """The tool prints its help, and refuses an argument that it does not know, and each of these lists of arguments, in one line."""
    result = run(tool, ['--help'])
    checks.check((tool, '--help'), result.returncode == 0 and result.stdout.decode().startswith(usage) and not result.stderr, result)
    for arguments in (['--unknown'], *wrong):
        result = run(tool, arguments)
        checks.check((tool, arguments), one_line(result, 2, '--help' if '--unknown' in arguments else ''), result)
