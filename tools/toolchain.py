"""The inside of the command `rt`, for what its commands don't offer.

They try one edit a run, and build no library with its statements alone. Whoever asks for the inside
goes on by the commands if the kit is another one than those below.
"""
import importlib.machinery
import importlib.util
import os
import shutil
import subprocess
import sys

# What `rt version` says of the kits whose inside is known.
KITS = [f'rattle-kit-{it} logic dac8208d650f15bf' for it in ('13b', '13f')]


def inside():
    """The inside of `rt`, or None if it isn't known, which is said."""
    path = os.path.realpath(shutil.which('rt') or sys.exit('there is no rt on the path'))
    ran = subprocess.run([path, 'version'], stdout=subprocess.PIPE, text=True, check=False)
    if (kit := ran.stdout.strip()) not in KITS:
        print(f'The inside of {kit} isn\'t known, so its commands do the work, which takes longer: '
              'once tools/edits --right is well with it, name it in tools/toolchain.py.',
              file=sys.stderr)
        return None
    loader = importlib.machinery.SourceFileLoader('rt', path)
    module = importlib.util.module_from_spec(importlib.util.spec_from_loader('rt', loader))
    loader.exec_module(module)
    module.rtlib.guarded()  # its first call sets a signal's handler, which only the main thread may
    return module.rtlib
