"""Makes the wheel that `pip install ./lab` asks for, using only the standard library, so that it needs no network.

What is in pyproject.toml is here as well, since Python has no TOML reader before 3.11; the tests compare both."""
import base64
import hashlib
import os
import time
import zipfile

NAME, VERSION = "numalab", "1.1.0"
SUMMARY = "Traces for numatrace that a person can write, and its reports as a person can read them"
HERE = os.path.dirname(os.path.abspath(__file__))
INFO = f"{NAME}-{VERSION}.dist-info"
# What `pip install './lab[NAME]'` also installs, for `numalab policies`.
EXTRAS = {"numpy": "numpy", "dask": "distributed"}
METADATA = (f"Metadata-Version: 2.1\nName: {NAME}\nVersion: {VERSION}\nSummary: {SUMMARY}\nRequires-Python: >=3.9\n"
            + "".join(f'Provides-Extra: {name}\nRequires-Dist: {module}; extra == "{name}"\n' for name, module in EXTRAS.items()))
EARLIEST = 315532800  # 1980-01-01, as zip files have no earlier time
WHEEL = "Wheel-Version: 1.0\nGenerator: wheel_of\nRoot-Is-Purelib: true\nTag: py3-none-any\n"
COMMANDS = "[console_scripts]\nnumalab = numalab.cli:main\n"


def files_of_package():
    """Each file of the package by its name in the wheel, and the schema of traces, which is in docs/."""
    with open(os.path.join(HERE, "../docs/trace.schema.json"), "rb") as file:
        yield f"{NAME}/trace.schema.json", file.read()
    for folder, _, names in sorted(os.walk(os.path.join(HERE, NAME))):
        for name in sorted(names):
            if name.endswith((".py", ".json", ".html", ".css", ".js", ".c")):
                path = os.path.join(folder, name)
                with open(path, "rb") as file:
                    yield os.path.relpath(path, HERE).replace(os.sep, "/"), file.read()


def entry(path):
    """A file's head in a wheel. Its time is SOURCE_DATE_EPOCH, or the earliest that a wheel can say, so that the wheel is the same
    whenever it is made."""
    seconds = max(int(os.environ.get("SOURCE_DATE_EPOCH", 0)), EARLIEST)
    head = zipfile.ZipInfo(path, time.gmtime(seconds)[:6])
    head.compress_type, head.external_attr = zipfile.ZIP_DEFLATED, 0o644 << 16
    return head


def written(folder, files):
    """Writes a wheel of these files, and returns its name."""
    name = f"{NAME}-{VERSION}-py3-none-any.whl"
    files = [*files, (f"{INFO}/METADATA", METADATA.encode()), (f"{INFO}/WHEEL", WHEEL.encode()), (f"{INFO}/entry_points.txt", COMMANDS.encode())]
    record = ""
    with zipfile.ZipFile(os.path.join(folder, name), "w") as wheel:
        for path, data in files:
            digest = base64.urlsafe_b64encode(hashlib.sha256(data).digest()).decode().rstrip("=")
            record += f"{path},sha256={digest},{len(data)}\n"
            wheel.writestr(entry(path), data)
        wheel.writestr(entry(f"{INFO}/RECORD"), record + f"{INFO}/RECORD,,\n")
    return name


def build_wheel(wheel_directory, config_settings=None, metadata_directory=None):
    return written(wheel_directory, files_of_package())


def build_editable(wheel_directory, config_settings=None, metadata_directory=None):
    return written(wheel_directory, [(f"{NAME}.pth", (HERE + "\n").encode())])
