#!/usr/bin/env python3
"""Tests of play and of the tools that run a program, and of built, which builds it: run `python3 tools/test_play.py`. The programs are built first, where they are not; what else the toolchain might
say is played by a script. The last line is 'N passed, M failed'."""
import os
import pty
import select
import shutil
import signal
import subprocess
import sys
import tempfile

# no files of Python's own beside these
sys.dont_write_bytecode = True
from checks import HERE, Checks, fails_to_write, one_line, refuses_arguments, right, run
from programs import path_of

EXAMPLE = 'V 12\nM\nV −3\nQ 1\nC 1\nQ 1\n'
SAID = '''\
taps 60       room for 60 marks at a time
1 V 0         headroom 3.00 dB at 1
2 M 0         a layer starts at 1
3 V 0         headroom -0.75 dB at 2, clipping
4 Q 0 -3 2    least headroom since 1: -0.75 dB at 2
5 C 0         the layer since 1 is forgotten
6 Q 11        refused with 11: no mark is active at 1
end 6 5 0     commands read: 6, accepted: 5; marks active: 0
'''

# Of a last command that is refused, what it says in words.
REFUSED = [
    ('M', 'refused with 7: no value has come yet'),
    ('V 1\nM\nM', 'refused with 8: position 1 is marked already'),
    ('V 1\nM\nC 1\nM', 'refused with 9: the mark at 1 was closed, and no other can stand there'),
    ('V 1\nM\n' * 60 + 'V 1\nM', 'refused with 10: 60 marks are active, and there is room for no more'),
    ('V 1\nC 0', 'refused with 11: no mark is active at 0'),
]

# Values and how many decibels they are.
DECIBELS = [(0, '0.00'), (1, '0.25'), (-1, '-0.25'), (-4, '-1.00'), (-6, '-1.50'), (2147483647, '536870911.75'), (-2147483648, '-536870912.00')]

# What is typed in a terminal, and lines that are then shown, in order.
TYPED = [b'V 12\r', b'v 3\r', b'M\r', b'\r', b'V -3\r', b'Q 1\r', b'\x04']
SHOWN = ['taps 60           room for 60 marks at a time', '1 V 0             headroom 3.00 dB at 1', "unknown command 'v': did you mean 'V'?", '2 M 0             a layer starts at 1',
         '3 V 0             headroom -0.75 dB at 2, clipping', '4 Q 0 -3 2        least headroom since 1: -0.75 dB at 2', 'end 4 4 1         commands read: 4, accepted: 4; marks active: 1']


def played(checks):
    """What play prints of files, and what its status is."""
    result = run('play', [], EXAMPLE.encode())
    checks.check('the example', right(result, 0, SAID.encode(), []), result)
    for commands, words in REFUSED:
        result = run('play', ['-'], commands.encode())
        checks.check(words, result.returncode == 0 and result.stdout.decode().splitlines()[-2].endswith('    ' + words), result)
    for value, decibels in DECIBELS:
        result = run('play', [], f'V {value}\nM\nQ 1\n'.encode())
        at = f'least headroom since 1: {decibels} dB at 1\n'
        checks.check(value, result.returncode == 0 and at in result.stdout.decode() and f'    headroom {decibels} dB at 1' in result.stdout.decode(), result)
    result = run('play', [], b'V 1\nX\nv 2\n')
    checks.check('bad lines', right(result, 1, b'', ["line 2: unknown command 'X'", "line 3: unknown command 'v': did you mean 'V'?"]), result)
    result = run('play', ['-k'], b'V 1\nX\nM\n')
    checks.check('-k', result.returncode == 1 and b'\n2 M 0' in result.stdout and b'\nend 2 2 1' in result.stdout and b'line 2: ' in result.stderr, result)
    result = run('play', [], b'V 1\n' * 3300)
    checks.check('the limit', result.returncode == 3 and b'\nend 3276 3276 0' in result.stdout and result.stderr.startswith(b'line 3277: the stream program reads'), result)
    for name in ('absent', '/'):
        result = run('play', [name])
        checks.check(name, one_line(result, 2, f'tools/play: {name}: '), result)
    refuses_arguments(checks, 'play', 'usage: tools/play [-k] [FILE]', ['a', 'b'])
    refuses_arguments(checks, 'stream', 'usage: tools/stream', ['a'])
    refuses_arguments(checks, 'built', 'usage: tools/built NAME', [], ['a', 'b'])
    refuses_arguments(checks, 'limiter', 'usage: tools/limiter W FILE', ['1'])
    refuses_arguments(checks, 'lookup', 'usage: tools/lookup FILE', [])
    refuses_arguments(checks, 'library', 'usage: tools/library', ['a'])
    for tool in ('play', 'stream'):
        path = os.path.join(HERE, tool)
        result = subprocess.run(['sh', '-c', '"$0" <&-', path], capture_output=True, timeout=60)
        checks.check((tool, 'input closed'), one_line(result, 2, f'tools/{tool}: standard input: it is closed'), result)
        result = subprocess.run(['sh', '-c', '"$0" < /', path], capture_output=True, timeout=60)
        checks.check((tool, 'a folder for input'), one_line(result, 2, f'tools/{tool}: standard input: Is a directory'), result)
    result = subprocess.run(['sh', '-c', '"$0" "$1" - 2>&-', sys.executable, os.path.join(HERE, 'commands.py')], input=b'V 1\nX\n', stdout=subprocess.PIPE)
    checks.check('errors closed', result.returncode == 1 and result.stdout == b'', result)
    result = subprocess.run(['sh', '-c', '"$0" 2>&-', os.path.join(HERE, 'stream')], input=b'\2', stdout=subprocess.PIPE)
    checks.check('errors closed', result.returncode == 0 and result.stdout == b'taps 60\n1 M 7\nend 1 0 0\n', result)
    fails_to_write(checks, 'play', [], EXAMPLE.encode())
    fails_to_write(checks, 'stream', [])
    fails_to_write(checks, 'limiter', ['1', '-'], b'7\n')
    fails_to_write(checks, 'lookup', ['-'], b'7\n')


def typed(checks):
    """In a terminal, each line is answered as it is typed: the answer to one, and the prompt for the next, are awaited before that is typed."""
    try:
        screen, end = pty.openpty()
    except OSError as why:
        print(f'no terminal can be opened here, and nothing is typed: {why}', file=sys.stderr)
        return
    tool = subprocess.Popen([os.path.join(HERE, 'play')], stdin=end, stdout=end, stderr=end)
    os.close(end)
    lines = []
    try:
        for line in [b'', *TYPED]:
            os.write(screen, line)
            seen = b''
            while not seen.endswith(b'> ') and select.select([screen], [], [], 30)[0]:
                try:
                    seen += os.read(screen, 4096)
                except OSError:
                    break
            lines += [it for it in seen.decode(errors='replace').replace('\r', '').split('\n') if '    ' in it or 'command' in it]
    finally:
        tool.kill()
        status = tool.wait()
        os.close(screen)
    checks.check('typed', status in (0, -signal.SIGKILL) and len(lines) == len(SHOWN) and all(a.endswith(b) for a, b in zip(lines, SHOWN)), (status, lines))


# What an rt says that proves the crates named, and what it does, as a script.
RT = '''#!/bin/sh
echo called >> "$CALLS"
[ -z "$SILENT" ] || exit 1
[ -z "$EDITS" ] || echo '// more' >> ../low/src/lib.rt
for crate in $KEPT; do
    echo "rt: $crate: begins with what a check kept in /elsewhere/$crate"
done
for crate in $PROVES; do
    echo "rt: chose --jobs 2 for $crate"
    echo "fn $crate::f: proved"
    echo "statements core: modules loaded=1 checked=0"
    echo "crate $crate: modules loaded=0 checked=1"
    echo "logic=proved functions=1 sum=0"
done
[ -z "$FAILS" ] || { echo "crate $FAILS: modules loaded=0 checked=1"; echo 'logic=not-proved'; echo 'no proof: f'; exit 1; }
[ "$1" != lib ] || { mkdir -p out && echo archive > out/libfirmware_c.a; exit; }
[ -n "$NO_BINARY" ] || { mkdir -p out && printf '#!/bin/sh\\n%s\\n' "${PROGRAM-cat}" > out/stream && chmod +x out/stream; }
'''


def copied(folder, *, rt=True, python=True):
    """A repository of three crates, a program `stream` and the library `firmware_c` above `low`, with the tools of this one; and what stands in PATH."""
    for name in ('low', 'stream', 'firmware_c'):
        os.makedirs(os.path.join(folder, 'crates', name, 'src'))
    for name in ('low/src/lib.rt', 'stream/src/main.rt', 'firmware_c/src/lib.rt', '../crates.txt'):
        with open(os.path.join(folder, 'crates', name), 'w') as f:
            f.write('low:\nstream: low io\nfirmware_c staticlib: low\n' if name.endswith('txt') else '// nothing\n')
    shutil.copytree(HERE, os.path.join(folder, 'tools'))
    commands = os.path.join(folder, 'commands')
    os.mkdir(commands)
    for it in 'sh bash env chmod dirname readlink cat sha256sum grep find awk sort xargs sed stat ls wc mkdir mktemp rm cp mv'.split() + ['python3'] * python:
        os.symlink(sys.executable if it == 'python3' else shutil.which(it), os.path.join(commands, it))
    if rt:
        with open(os.path.join(commands, 'rt'), 'w') as f:
            f.write(RT)
        os.chmod(os.path.join(commands, 'rt'), 0o755)
    return commands


def built(checks):
    """The tool that builds: what it shows while the toolchain works, when it asks it, and what it says where something is missing."""
    with tempfile.TemporaryDirectory() as folder:
        commands = copied(folder)
        calls = os.path.join(folder, 'calls')

        def build(user=None, tool=('built', 'stream'), text=b'', **settings):
            names = {'PATH': commands, 'CALLS': calls, 'KEPT': '', 'PROVES': 'low stream', 'FAILS': '', 'SILENT': '', 'EDITS': '', 'NO_BINARY': ''}
            return subprocess.run([os.path.join(folder, 'tools', tool[0]), *tool[1:]], input=text, capture_output=True, env={**names, **settings}, **({} if user is None else {'user': user, 'group': user, 'extra_groups': []}))

        def asked():
            if not os.path.exists(calls):
                return 0
            with open(calls) as f:
                return len(f.readlines())

        path = os.path.join(folder, 'crates', 'stream', 'out', 'stream')
        done = os.fsencode(path) + b'\n'
        result = build(NO_BINARY='1')
        checks.check('no binary', result.returncode == 1 and result.stderr.endswith(b'tools/built: rt built no crates/stream/out/stream\n') and asked() == 1, result)
        result = build(FAILS='stream', PROVES='low')
        checks.check('no proof', result.returncode == 1 and result.stderr.endswith(b'no proof: f\ntools/built: stream is not built; rt said the above\n') and b'statements' not in result.stderr, result)
        result = build(FAILS='low', PROVES='')
        checks.check('no proof below', result.returncode == 1 and result.stderr.endswith(b'no proof: f\ntools/built: low is not proved, and stream is not built; rt said the above\n'), result)
        result = build(SILENT='1')
        checks.check('rt says nothing', result.returncode == 1 and result.stderr.endswith(b'tools/built: stream is not built; rt said nothing\n'), result)
        os.unlink(calls)
        result = build()
        checks.check('from nothing', right(result, 0, done, ['tools/built: stream is proved before it is built: crates to prove: 2, from nothing about 1 min', '    proved: low; left: 1', '    proved: stream; left: 0']), result)
        count = asked()
        result = build()
        checks.check('at once', right(result, 0, done, []) and asked() == count, result)
        result = build(PATH=commands.replace('commands', 'no_commands') + ':' + commands)
        checks.check('another PATH', right(result, 0, done, []) and asked() == count, result)
        result = build(EDITS='1')
        checks.check('nothing to do', asked() == count, result)
        os.unlink(path)
        build(EDITS='1')
        result = build()
        checks.check('a source is edited while rt works', result.returncode == 0 and asked() == count + 2, result)
        os.unlink(path)
        count += 2
        result = build(KEPT='low', PROVES='stream')
        checks.check('the program is gone', result.returncode == 0 and result.stdout == done and asked() == count + 1 and b'    proved before: low; left: 1\n    proved: stream; left: 0\n' in result.stderr, result)
        with open(path, 'a') as f:
            f.write('# not what was built\n')
        result = build()
        checks.check('the program is another', result.returncode == 0 and asked() == count + 2, result)
        with open(os.path.join(folder, 'crates', 'low', 'src', 'lib.rt'), 'a') as f:
            f.write('// more\n')
        result = build()
        checks.check('a source below is another', result.returncode == 0 and asked() == count + 3 and b'proved: stream' in result.stderr, result)
        with open(os.path.join(folder, 'crates.txt'), 'a') as f:
            f.write('# more\n')
        result = build()
        checks.check('crates.txt says more', right(result, 0, done, []), result)
        with open(os.path.join(folder, 'crates.txt')) as f:
            text = f.read()
        with open(os.path.join(folder, 'crates.txt'), 'w') as f:
            f.write(text.replace('stream: low io', 'stream: low'))
        result = build()
        checks.check('crates.txt says other things of it', result.returncode == 0 and asked() == count + 4, result)
        # a program that ends without reading all of its input, as on an older processor
        os.unlink(path)
        build(PROGRAM='exit 127')
        for tool in ('play', 'stream'):
            for text in (b'', b'V 1\n' * 3000):
                result = build(tool=[tool], text=text)
                checks.check((tool, '127'), result.returncode == 1 and b'ended with 127: it is built for x86-64-v2' in result.stderr and result.stderr.count(b'\n') == 1, result)
        os.unlink(path)
        build()
        os.chmod(path, 0o644)
        result = build()
        checks.check('the program cannot be run', result.returncode == 0 and result.stdout == done and os.access(path, os.X_OK), result)
        result = build(tool=['library'], PROVES='firmware_c')
        archive = b'target/filkotar/libfilkotar.a is built: 8 bytes, for x86-64; its header is include/filkotar.h\n'
        checks.check('library', right(result, 0, archive, ['tools/library: firmware_c is proved before it is built: crates to prove: ', '    proved: firmware_c; left: 0']), result)
        count = asked()
        result = build(tool=['library'])
        checks.check('library at once', right(result, 0, archive, []) and asked() == count, result)
        os.unlink(os.path.join(commands, 'rt'))
        result = build()
        checks.check('no rt, nothing to do', right(result, 0, done, []), result)
        result = build(tool=['library'])
        checks.check('no rt, nothing to do', right(result, 0, archive, []), result)
        with open(os.path.join(folder, 'crates', 'low', 'src', 'lib.rt'), 'a') as f:
            f.write('// more\n')
        result = build(tool=['library'])
        checks.check('no rt', one_line(result, 1, "tools/library: there is no command 'rt' here") and os.path.exists(os.path.join(folder, 'target', 'filkotar', 'libfilkotar.a')), result)
        os.unlink(path)
        result = build()
        checks.check('no rt', one_line(result, 1, "tools/built: there is no command 'rt' here"), result)

    with tempfile.TemporaryDirectory() as folder:
        commands = copied(folder)
        # whatever the umask of this test and of the clone
        subprocess.run(['chmod', '-R', 'a+rX', folder], check=True)
        os.chmod(os.path.join(folder, 'crates', 'low'), 0o555)
        # to the superuser every folder is writable, so nobody builds
        try:
            result = build(65534 if os.geteuid() == 0 else None)
            checks.check('an unwritable folder', one_line(result, 1, 'tools/built: crates/low/out cannot be written: stream is not built'), result)
        except (OSError, subprocess.SubprocessError) as why:
            print(f'the user nobody cannot run a tool in {folder}, and no unwritable folder is tried: {why}', file=sys.stderr)
        os.chmod(os.path.join(folder, 'crates', 'low'), 0o755)
        with open(os.path.join(folder, 'target'), 'w'):
            pass
        result = build()
        checks.check('no folder for what is kept', one_line(result, 1, 'tools/built: target/built cannot be written: stream is not built'), result)

    with tempfile.TemporaryDirectory() as folder:
        commands = copied(folder, python=False)
        for tool, *arguments in (['play'], ['picture', '-'], ['limiter', '1', '-'], ['lookup', '-']):
            result = subprocess.run([os.path.join(folder, 'tools', tool), *arguments], capture_output=True, input=b'', env={'PATH': commands})
            checks.check((tool, 'no python3'), one_line(result, 1, f"tools/{tool}: there is no command 'python3' here, which tools/{tool} needs"), result)


def main():
    checks = Checks()
    for name in ('stream', 'limiter', 'lookup'):
        path_of(name)
    played(checks)
    typed(checks)
    built(checks)
    checks.end()


if __name__ == '__main__':
    main()
