"""What the programs of this folder and of tests/ share: the list of crates, a copy of them, `rt check`."""
import argparse
import glob
import os
import shutil
import subprocess

ROOT = os.path.dirname(os.path.dirname(os.path.abspath(__file__)))


def arguments(doc):
    """A parser whose help is the text at the head of the program."""
    return argparse.ArgumentParser(description=doc, formatter_class=argparse.RawDescriptionHelpFormatter)


def read(path):
    with open(path, encoding='utf-8') as text:
        return text.read()


def write(path, text):
    os.makedirs(os.path.dirname(os.path.abspath(path)), exist_ok=True)
    with open(path, 'w', encoding='utf-8') as out:
        out.write(text)


def listed():
    """What crates.txt of the folder that the program is in says: each crate, in order, and what it may use."""
    lines = [line.split('#')[0].partition(':') for line in read('crates.txt').split('\n')]
    return {name.split()[0]: uses.split() for name, colon, uses in lines if colon}  # `NAME staticlib:` of one that C calls


def below(name):
    """The crates of the repository that a crate stands on, each after those that it uses itself."""
    uses, found = listed(), []
    for dep in uses[name]:
        if dep in uses:
            found += [d for d in below(dep) + [dep] if d not in found]
    return found


def edits_of(name):
    """The must-fail edits of a crate, by their names."""
    return {os.path.basename(path): path for path in sorted(glob.glob(f'crates/{name}/must-fail/*.edit'))}


def copy_crates(folder):
    """Copies the crates without their edits. `rt check` and `rt must-fail` in the copy begin with what checks kept here."""
    shutil.copytree('crates', f'{folder}/crates', ignore=lambda at, names: [n for n in names if at.count('/') == 1 and n in ('out', 'must-fail')])
    for name in ('crates.txt', 'HANDLES'):
        if os.path.exists(name):
            shutil.copy(name, folder)


def check(crate, *words, top=ROOT):
    """Whether `rt check` proves a crate, and what it says."""
    ran = subprocess.run(['rt', 'check', *words], cwd=f'{top}/crates/{crate}', stdout=subprocess.PIPE, stderr=subprocess.STDOUT, text=True)
    return ran.returncode == 0, ran.stdout
