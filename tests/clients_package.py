"""The Python client as a package: its sources, and what pip makes of them without a network."""
import ast
import hashlib
import importlib.util
import inspect
import os
import re
import shutil
import subprocess
import sys
import tarfile
import tempfile

from clients_served import PACKAGE, SOURCE
import bavgusen
from clients_fakes import Fake, says
from served import WAIT

BACKEND = os.path.join(PACKAGE, "wheels.py")


def sources():
    for folder, _, names in sorted(os.walk(SOURCE)):
        yield from (os.path.join(folder, name) for name in sorted(names) if name.endswith(".py"))


def package(program, check):
    """It compiles, is written in the Python of 3.9, and documents what is public."""
    with tempfile.TemporaryDirectory() as folder:
        env = {**os.environ, "PYTHONPYCACHEPREFIX": folder}
        done = subprocess.run([sys.executable, "-m", "compileall", "-q", SOURCE], env=env, capture_output=True)
        check("compiled", (done.returncode, done.stdout, done.stderr) == (0, b"", b""), done)
    for path in (*sources(), BACKEND):
        with open(path, encoding="utf-8") as file:
            text = file.read()
        check(f"{path}: Python 3.9", ast.parse(text, feature_version=(3, 9)) is not None, path)
        check(f"{path}: 500 lines of 120", text.count("\n") <= 500 and max(map(len, text.split("\n"))) <= 120, path)
    public = [getattr(bavgusen, name) for name in bavgusen.__all__]
    parts = [(each, name, part) for each in public if inspect.isclass(each) for name, part in vars(each).items()]
    bare = [each for each in public if callable(each) and not inspect.getdoc(each)]
    bare += [(each, name) for each, name, part in parts if not name.startswith("_") and not inspect.getdoc(
        getattr(each, name)) and (callable(part) or isinstance(part, property))]
    check("what is public is documented", bare == [], bare)


def types(program, check):
    """mypy finds nothing in it, where it is installed."""
    mypy = shutil.which("mypy")
    if mypy is None:
        print("no mypy: types of the Python client were not checked")
        return
    with tempfile.TemporaryDirectory() as folder:
        done = subprocess.run([mypy, "--strict", "--cache-dir", folder, SOURCE, BACKEND], capture_output=True)
        check("types", done.returncode == 0, done.stdout.decode())


def backend(program, check):
    """The project is read as Python's own reader of TOML reads it."""
    try:
        import tomllib
    except ImportError:
        print("Python is older than 3.11: pyproject.toml was not read by another reader")
        return
    spec = importlib.util.spec_from_file_location("wheels", BACKEND)
    wheels = importlib.util.module_from_spec(spec)
    spec.loader.exec_module(wheels)
    with open(os.path.join(PACKAGE, "pyproject.toml"), encoding="utf-8") as file:
        text = file.read()
    wanted = tomllib.loads(text)
    wanted["project.scripts"] = wanted["project"].pop("scripts")
    check("pyproject.toml", wheels._tables(text) == wanted, wheels._tables(text))


def session_by(words, env):
    """Status, output and errors of an installed shell, beside a server that says one word."""
    fake = Fake(says(b"done @1\n"))
    done = subprocess.run([*words, "--port", str(fake.port), "--user", "ann"], input=b"DELETE FROM t;\n", env=env,
        capture_output=True, timeout=WAIT)
    return done.returncode, done.stdout, done.stderr


def options(python, env):
    """What pip is given before the folder: nothing, and `-e` where it is no older than this."""
    told = subprocess.run([python, "-m", "pip", "--version"], env=env, capture_output=True, timeout=WAIT).stdout
    if tuple(map(int, re.findall(b"[0-9]+", told)[:2])) >= (21, 3):
        return [], ["-e"]
    print("pip is older than 21.3: the Python client was not installed with -e")
    return ([],)


def installed(program, check):
    """`pip install ./clients/python`, also with `-e`, in a new environment without a network; and a session by each."""
    with tempfile.TemporaryDirectory() as folder:
        env = {"PATH": os.environ.get("PATH", ""), "HOME": folder, "PIP_NO_INDEX": "1",
            "PIP_DISABLE_PIP_VERSION_CHECK": "1", "PYTHONDONTWRITEBYTECODE": "1"}
        place, copy = os.path.join(folder, "place"), os.path.join(folder, "copy")
        made = subprocess.run([sys.executable, "-m", "venv", place], env=env, capture_output=True, timeout=WAIT)
        if made.returncode:
            print("no venv: the Python client was not installed")
            return
        python, shell = (os.path.join(place, "bin", name) for name in ("python", "sysr-shell"))
        shutil.copytree(PACKAGE, copy)
        for option in options(python, env):
            done = subprocess.run([python, "-m", "pip", "install", "-q", *option, copy], env=env, cwd=folder,
                capture_output=True, timeout=WAIT)
            check(f"installed {option}", (done.returncode, done.stdout) == (0, b""), done)
            seen = session_by([shell], env)
            check(f"a session by it {option}", seen == (0, b"done @1\n", b""), seen)
            words = [python, "-c", "import bavgusen, os; print(os.path.dirname(bavgusen.__file__))"]
            where = subprocess.run(words, env=env, capture_output=True, timeout=WAIT).stdout.decode().strip()
            is_here = where == os.path.join(copy, "src", "bavgusen")
            check(f"where it is {option}", is_here == bool(option) and "py.typed" in os.listdir(where), where)
        archives(folder, copy, python, check)


def archives(folder, copy, python, check):
    """The archive of sources builds the same wheel, byte by byte, as the sources that it is of."""
    words = [python, "-c", "import wheels; print(wheels.build_sdist('.')); print(wheels.build_wheel('.'))"]
    env = {"PYTHONDONTWRITEBYTECODE": "1"}
    names = subprocess.run(words, cwd=copy, env=env, capture_output=True, timeout=WAIT).stdout.decode().split()
    with tarfile.open(os.path.join(copy, names[0])) as archive:
        archive.extractall(folder)
    unpacked = os.path.join(folder, names[0][:-len(".tar.gz")])
    again = subprocess.run(words, cwd=unpacked, env=env, capture_output=True, timeout=WAIT).stdout.decode().split()
    seen = [hashlib.sha256(open(os.path.join(each, names[1]), "rb").read()).digest() for each in (copy, unpacked)]
    check("archives", names == again and seen[0] == seen[1], (names, again))


TESTS = (package, types, backend, installed)
