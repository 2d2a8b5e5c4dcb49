#!/usr/bin/env python3
"""A wheel of the Python module with its shared object.

    tools/wheel.py VERSION SHARED_OBJECT FOLDER       writes vemiktag-VERSION-py3-none-PLATFORM.whl into the folder, and its name

The module is examples/embed/vemiktag.py, as a package with the shared object in it: so no compiler is needed where it is installed. The
platform is that of the shared object's machine and of the oldest glibc that has all that it asks for, which binutils' `objdump` tells. The
same files make the same bytes.

Only the standard library is used."""

import base64
import hashlib
import os
import re
import subprocess
import sys
import zipfile

ROOT = os.path.dirname(os.path.dirname(os.path.abspath(__file__)))
MODULE = os.path.join(ROOT, 'examples', 'embed', 'vemiktag.py')
LICENSE = os.path.join(ROOT, 'LICENSE')
OLDEST = (2, 17)                # of glibc, for which installers know a name
LONG_AGO = (1980, 1, 1, 0, 0, 0)

MAIN = '''"""What `python3 -m vemiktag` runs."""

import sys

from vemiktag import main

sys.exit(main(sys.argv[1:]))
'''

METADATA = '''Metadata-Version: 2.1
Name: vemiktag
Version: {version}
Summary: A proved engine for collaborative text and tables
License: Apache-2.0
License-File: LICENSE
Requires-Python: >=3.8
Classifier: License :: OSI Approved :: Apache Software License
Classifier: Operating System :: POSIX :: Linux
Classifier: Programming Language :: Python :: 3
Classifier: Typing :: Typed
Description-Content-Type: text/plain

Clients that edit one text and one table, each at once, and show the same once all have the same messages; what they show is proved to be what a
definition over whole lists says. `vemiktag.Client` is one editor's client, whose messages go over a network of your own, `vemiktag.Session`
and `vemiktag.report` play whole sessions, and `vemiktag.version()` says what was proved of the shared object.

Built for processors of x86-64-v2.
'''


def platform_of(shared):
    """The platform of a shared object, by the newest version of glibc that it asks for."""
    told = subprocess.run(['objdump', '-T', shared], stdout=subprocess.PIPE, check=True).stdout.decode()
    machine = re.search(r'file format elf64-(\S+)', told)[1].replace('-', '_')
    asked = [tuple(map(int, found)) for found in re.findall(r'GLIBC_(\d+)\.(\d+)', told)]
    first, second = max([OLDEST, *asked])
    return f'manylinux_{first}_{second}_{machine}'


def record_of(name, data):
    """The line of a file in the wheel's list of files."""
    digest = base64.urlsafe_b64encode(hashlib.sha256(data).digest()).rstrip(b'=').decode()
    return f'{name},sha256={digest},{len(data)}\n'


def read(path):
    with open(path, 'rb') as file:
        return file.read()


def files_of(version, shared, tag):
    """The files of the wheel, by their names."""
    facts = f'vemiktag-{version}.dist-info'
    wheel = f'Wheel-Version: 1.0\nGenerator: tools/wheel.py\nRoot-Is-Purelib: false\nTag: {tag}\n'
    files = {
        'vemiktag/__init__.py': read(MODULE),
        'vemiktag/__main__.py': MAIN.encode(),
        'vemiktag/libvemiktag.so': read(shared),
        'vemiktag/py.typed': b'',
        f'{facts}/LICENSE': read(LICENSE),
        f'{facts}/METADATA': METADATA.format(version=version).encode(),
        f'{facts}/WHEEL': wheel.encode(),
    }
    record = ''.join(record_of(name, data) for name, data in files.items()) + f'{facts}/RECORD,,\n'
    return {**files, f'{facts}/RECORD': record.encode()}


def main(words):
    if len(words) != 3:
        sys.exit(__doc__)
    version, shared, folder = words
    tag = f'py3-none-{platform_of(shared)}'
    name = f'vemiktag-{version}-{tag}.whl'
    with zipfile.ZipFile(os.path.join(folder, name), 'w', zipfile.ZIP_DEFLATED) as archive:
        for path, data in files_of(version, shared, tag).items():
            entry = zipfile.ZipInfo(path, LONG_AGO)
            entry.compress_type = zipfile.ZIP_DEFLATED
            entry.external_attr = (0o755 if path.endswith('.so') else 0o644) << 16
            archive.writestr(entry, data)
    print(name)


if __name__ == '__main__':
    main(sys.argv[1:])
