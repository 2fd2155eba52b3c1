"""Builds the package that `pip install ./tools` installs: the tool and, where tools/programs has built them or the release has them,
the programs beside it. Python's standard library only."""
import base64
import hashlib
import os
import re
import sysconfig
import zipfile

HERE = os.path.dirname(os.path.abspath(__file__))
ROOT = os.path.dirname(HERE)
PROGRAMS = [os.path.join(ROOT, 'programs'), os.path.join(ROOT, 'target', 'programs')]
PACKAGE = 'tonekit_tool'


def content(*names):
    with open(os.path.join(HERE, *names), 'rb') as file:
        return file.read()


def version():
    return re.search(r"__version__ = '([^']+)'", content(PACKAGE, '__init__.py').decode())[1]


def modules():
    """The package's modules: name in the archive, bytes, mode."""
    for name in sorted(os.listdir(os.path.join(HERE, PACKAGE))):
        if name.endswith('.py'):
            yield f'{PACKAGE}/{name}', content(PACKAGE, name), 0o644


def programs():
    """The programs, if they are built: those of a release, else of a checkout."""
    folder = next((each for each in PROGRAMS if os.path.isdir(each)), None)
    for name in sorted(os.listdir(folder)) if folder else ():
        if os.access(os.path.join(folder, name), os.X_OK):
            yield f'{PACKAGE}/programs/{name}', content(folder, name), 0o755


def about(folder, tag):
    """What pip wants to know, and the command."""
    texts = {
        'METADATA': f'Metadata-Version: 2.1\nName: tonekit\nVersion: {version()}\n'
                    'Summary: Check, judge, show, write and draw the files of a tone station\nRequires-Python: >=3.9\n',
        'WHEEL': f'Wheel-Version: 1.0\nGenerator: tonekit_build\nRoot-Is-Purelib: true\nTag: {tag}\n',
        'entry_points.txt': f'[console_scripts]\ntonekit = {PACKAGE}.cli:main\n',
    }
    return [(f'{folder}/{name}', text.encode(), 0o644) for name, text in texts.items()]


def record(entries, name):
    """The list of the archive's files with their digests."""
    lines = []
    for path, data, _ in entries:
        digest = base64.urlsafe_b64encode(hashlib.sha256(data).digest()).rstrip(b'=').decode()
        lines.append(f'{path},sha256={digest},{len(data)}\n')
    return name, ''.join([*lines, f'{name},,\n']).encode(), 0o644


def build_wheel(directory, config_settings=None, metadata_directory=None):
    """Called by pip: writes the archive and gives its name."""
    built = list(programs())
    platform = re.sub(r'[^A-Za-z0-9]+', '_', sysconfig.get_platform()) if built else 'any'
    tag, folder = f'py3-none-{platform}', f'tonekit-{version()}.dist-info'
    entries = [*modules(), *built, *about(folder, tag)]
    entries.append(record(entries, f'{folder}/RECORD'))
    name = f'tonekit-{version()}-{tag}.whl'
    with zipfile.ZipFile(os.path.join(directory, name), 'w', zipfile.ZIP_DEFLATED) as archive:
        for path, data, mode in entries:
            entry = zipfile.ZipInfo(path, (2020, 1, 1, 0, 0, 0))
            entry.external_attr = (0o100000 | mode) << 16
            entry.compress_type = zipfile.ZIP_DEFLATED
            archive.writestr(entry, data)
    return name
