"""Random plans of the second hand's generator, and streams in which each piece is preceded by its length on a line."""
import io
import os
import subprocess
import sys

top = os.path.dirname(os.path.dirname(os.path.abspath(__file__)))
release = os.path.join(top, 'second-hand', 'target', 'release')


def frames(name, stream, count):
    """The pieces of a stream. There have to be so many, and each whole."""
    stream, pieces = io.BytesIO(stream), []
    for head in iter(stream.readline, b''):
        if not head[:-1].isdigit() or not head.endswith(b'\n'):
            sys.exit('%s: after %d pieces no length comes' % (name, len(pieces)))
        pieces.append(stream.read(int(head)))
        if len(pieces[-1]) != int(head):
            sys.exit('%s: piece %d is cut short' % (name, len(pieces) - 1))
    if len(pieces) != count:
        sys.exit('%s: %d were to come, and %d came' % (name, count, len(pieces)))
    return pieces


def run(tool, *words, given=None):
    """What a tool of the second hand writes."""
    return subprocess.run([os.path.join(release, tool), *words], input=given, stdout=subprocess.PIPE, check=True).stdout


def plans(seed, count):
    return frames('plans', run('plans', str(seed), str(count)), count)
