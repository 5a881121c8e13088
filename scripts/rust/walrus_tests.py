"""Tests of scripts/walrus_on_this, for scripts/check/rust_tests.

That other versions are refused needs no walrus. The rest does. The variable WALRUS names a copy of walrus 0.24.4, beside
which are the packages that it depends on. WALRUS_MODULES may name a folder with modules. Otherwise they are those of
scripts/check/reference and of walrus's benchmarks.
"""
import glob
import os
import re
import subprocess

import package

SCRIPT = f'{package.ROOT}/scripts/walrus_on_this'
UNIT_TESTS, DOC_TESTS = 30, 12
PASSED = re.compile(r'^test result: ok\. (\d+) passed', re.M)
MANIFEST = '''[package]
name = "walrus"
version = "{version}"

[features]
parallel = [
    "rayon",
    "id-arena/rayon",
]

[dependencies.id-arena]
version = "2.2.1"

[dependencies.walrus-macro]
version = "=0.24.0"

'''
USER = '''[package]
name = "{name}"
version = "0.1.0"
edition = "2021"

[dependencies]
walrus = {{ path = "{walrus}" }}
'''


def is_refused(room, version, file):
    """Whether a walrus of this version, and without sources, is refused by this file, and nothing is written."""
    walrus, out = f'{room}/other_walrus', f'{room}/refused_walrus'
    package.write(f'{walrus}/Cargo.toml', MANIFEST.format(version=version))
    ran = subprocess.run([SCRIPT, walrus, out], capture_output=True, text=True)
    told = f'{file} is not that of walrus 0.24.4\n'
    return (ran.returncode, ran.stdout, ran.stderr) == (1, '', told) and not os.path.exists(out)


def run(cargo, walrus, folder, *words):
    """Runs cargo with the packages beside walrus in place of its registry."""
    beside = os.path.dirname(os.path.abspath(walrus))
    source = ['--config', 'source.crates-io.replace-with="beside"', '--config', f'source.beside.directory="{beside}"']
    return cargo.run(folder, words[0], *source, *words[1:])


def modules(walrus):
    folder = os.environ.get('WALRUS_MODULES')
    folders = [folder] if folder else [f'{package.ROOT}/scripts/check/reference/compiled', f'{walrus}/benches/fixtures']
    return sorted(it for folder in folders for it in glob.glob(f'{folder}/*.wasm'))


def outcomes(cargo, walrus, crate, room, name):
    """What this crate of walrus makes of all modules, or None and what cargo says of it."""
    user = f'{room}/{name}'
    package.write(f'{user}/Cargo.toml', USER.format(name=name, walrus=os.path.abspath(crate)))
    package.write(f'{user}/src/main.rs', package.read(f'{package.HERE}/walrus/outcomes.rs'))
    built = run(cargo, walrus, user, 'build', '--quiet')
    if built.returncode != 0:
        return None, built.stderr
    asked = ''.join(f'{it}\n' for it in modules(walrus))
    ran = subprocess.run([f'{room}/target/debug/{name}'], input=asked, capture_output=True, text=True)
    return ran.stdout.splitlines(), ran.stderr


def test_own(cargo, walrus, out, report):
    ran = run(cargo, walrus, out, 'test', '--quiet')
    is_right = ran.returncode == 0 and [int(it) for it in PASSED.findall(ran.stdout)] == [UNIT_TESTS, DOC_TESTS]
    return report(f"walrus's own {UNIT_TESTS} and {DOC_TESTS} tests", is_right, ran.stdout + ran.stderr)


def test_outcomes(cargo, walrus, out, room, report):
    wanted, said = outcomes(cargo, walrus, walrus, room, 'with_walrus')
    found, also_said = outcomes(cargo, walrus, out, room, 'with_ruffdresser')
    paths = modules(walrus)
    if wanted is None or found is None or not len(wanted) == len(found) == len(paths) > 0:
        return report("what walrus writes", False, said + also_said)
    written = sum(it.count('bytes') for it in wanted)
    lines = [f'{path}\n    wanted {told}\n    found  {it}' for path, told, it in zip(paths, wanted, found) if told != it]
    return report(f'what walrus writes: {written} outputs of {len(paths)} modules, {len(lines)} different', not lines,
                  '\n'.join(lines[:5]))


def test_all(cargo, room, report):
    """The counts of all tests that can be run."""
    refused = [is_refused(room, '0.24.3', 'Cargo.toml'), is_refused(room, '0.24.4', 'src/arena_set.rs')]
    counts = [report('scripts/walrus_on_this with another version', all(refused))]
    walrus, out = os.environ.get('WALRUS'), f'{room}/walrus'
    if not walrus:
        print('walrus over ruffdresser: skipped: the variable WALRUS is not set')
        return counts
    made = subprocess.run([SCRIPT, walrus, out], capture_output=True, text=True)
    if made.returncode != 0:
        return [*counts, report('scripts/walrus_on_this', False, made.stderr)]
    return [*counts, test_own(cargo, walrus, out, report), test_outcomes(cargo, walrus, out, room, report)]
