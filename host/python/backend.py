"""backend: what pip calls for `pip install host/python` (PEP 517). It makes a wheel of tapermoss.py and the shared object
that `make python` has made. In the wheel the module is a package, for only a package can have py.typed, which says that
its type hints are for others too.
"""
import base64
import configparser
import hashlib
import os
import sys
import sysconfig
import zipfile

import tapermoss

HERE = os.path.dirname(os.path.abspath(__file__))


def build_wheel(wheel_directory, config_settings=None, metadata_directory=None):
    """Makes the wheel in the folder; answers its name."""
    project = described()
    stem = f'{project["name"]}-{project["version"]}'
    tag = 'py3-none-' + sysconfig.get_platform().replace('-', '_').replace('.', '_')
    name = f'{stem}-{tag}.whl'
    contents = {
        'tapermoss/__init__.py': bytes_of(os.path.join(HERE, 'tapermoss.py')),
        'tapermoss/libperq.so': shared_object(),
        'tapermoss/py.typed': b'',
        f'{stem}.dist-info/METADATA': metadata(project).encode(),
        f'{stem}.dist-info/WHEEL': f'Wheel-Version: 1.0\nRoot-Is-Purelib: false\nTag: {tag}\n'.encode(),
    }
    record = f'{stem}.dist-info/RECORD'
    contents[record] = (''.join(map(entry, contents.items())) + f'{record},,\n').encode()
    with zipfile.ZipFile(os.path.join(wheel_directory, name), 'w', zipfile.ZIP_DEFLATED) as wheel:
        for path, data in contents.items():
            wheel.writestr(path, data)
    return name


class UnsupportedOperation(Exception):
    """What PEP 517 has a backend raise that makes no source archive."""


def build_sdist(sdist_directory, config_settings=None):
    raise UnsupportedOperation('a source archive would lack the library, which is built in a checkout: make a wheel')


def described():
    """The [project] table of pyproject.toml, read as an INI file: Python before 3.11 has no reader for TOML."""
    table = configparser.ConfigParser(delimiters='=', interpolation=None)
    table.read(os.path.join(HERE, 'pyproject.toml'), encoding='utf-8')
    return {key: value.strip('"') for key, value in table['project'].items()}


def metadata(project):
    fields = [('Metadata-Version', '2.1'), ('Name', project['name']), ('Version', project['version']),
              ('Summary', project['description']), ('Requires-Python', project['requires-python'])]
    return ''.join(f'{field}: {value}\n' for field, value in fields)


def shared_object():
    try:
        return bytes_of(tapermoss._path())
    except OSError as problem:
        sys.exit(f'the library cannot be read ({problem}): run `make python` first')


def bytes_of(path):
    with open(path, 'rb') as file:
        return file.read()


def entry(item):
    """A line of RECORD: a path with the sum and the length of what is there."""
    path, data = item
    digest = base64.urlsafe_b64encode(hashlib.sha256(data).digest()).rstrip(b'=').decode()
    return f'{path},sha256={digest},{len(data)}\n'
