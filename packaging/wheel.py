"""Builds the wheel by the package's own backend, and writes it again so that the same files give the same bytes. Run as

    python3 packaging/wheel.py PACKAGE FOLDER

PACKAGE is the folder of backend.py, FOLDER that of the wheel. ROLWYDDAC_LIB names the folder of the shared object that is
put into it, and SOURCE_DATE_EPOCH has the time of all its entries. Entries, their order and their content are the backend's.
"""

import importlib.util
import os
import sys
import tempfile
import time
import zipfile

# what a zip archive can date at the earliest
FIRST = (1980, 1, 1, 0, 0, 0)

# modes of files that are code for the machine, and of all others
SHARED, PLAIN = 0o100755, 0o100644

UNIX = 3


def backend_of(package):
    """The backend, as pip loads it."""
    found = importlib.util.spec_from_file_location('backend', os.path.join(package, 'backend.py'))
    module = importlib.util.module_from_spec(found)
    found.loader.exec_module(module)
    return module


def entry(name, date):
    """An entry's header, the same on every machine."""
    made = zipfile.ZipInfo(name, date)
    made.compress_type = zipfile.ZIP_DEFLATED
    made.create_system = UNIX
    made.external_attr = (SHARED if name.endswith('.so') else PLAIN) << 16
    return made


def main(package, folder):
    date = max(FIRST, time.gmtime(int(os.environ['SOURCE_DATE_EPOCH']))[:6])
    with tempfile.TemporaryDirectory() as made:
        name = backend_of(package).build_wheel(made)
        with zipfile.ZipFile(os.path.join(made, name)) as old, zipfile.ZipFile(os.path.join(folder, name), 'w') as new:
            for each in old.namelist():
                new.writestr(entry(each, date), old.read(each), compresslevel=9)


if __name__ == '__main__':
    if len(sys.argv) != 3:
        sys.exit(__doc__)
    main(*sys.argv[1:])
