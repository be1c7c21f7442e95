"""Python in a process of its own, which has only those settings of Python and of tapermoss that it is given."""
import os
import subprocess
import sys

import tapermoss

FOLDER = os.path.dirname(os.path.abspath(tapermoss.__file__))
LIBRARY = os.path.abspath(tapermoss._path())


def python(*arguments, folder=None, **settings):
    """Runs the interpreter; answers its exit status and all that it says."""
    kept = {name: value for name, value in os.environ.items() if not name.startswith(('PYTHON', 'TAPERMOSS'))}
    made = subprocess.run([sys.executable, '-B', *arguments], cwd=folder, env={**kept, **settings},
                          stdout=subprocess.PIPE, stderr=subprocess.STDOUT, text=True)
    return made.returncode, made.stdout
