"""Builds the package: a wheel with the modules of src/ and a shared library, which `cc` links from libearlybird.a. It stands on
nothing but Python and `cc`, so `pip install ./python` asks no registry. The archive is the one in the folder that EARLYBIRD_LIB
names, else that of this checkout's dist/, else the one that pkg-config knows."""
import base64
import hashlib
import os
import subprocess
import sys
import tarfile
import tempfile
import zipfile

HERE = os.path.dirname(os.path.abspath(__file__))
NAME, VERSION = "earlybird", "0.5.0"
TAG = "py3-none-linux_x86_64"
INFO = "%s-%s.dist-info" % (NAME, VERSION)
LICENCE, LICENCES = "MIT OR Apache-2.0", ("LICENSE-MIT", "LICENSE-APACHE")


def archive():
    """The path of libearlybird.a."""
    named = os.environ.get("EARLYBIRD_LIB")
    folders = [named] if named else [os.path.join(HERE, "..", "dist"), known_to_pkg_config()]
    for folder in filter(None, folders):
        path = os.path.join(folder, "libearlybird.a")
        if os.path.exists(path):
            return path
    raise SystemExit("libearlybird.a isn't found: install it by ./earlybird install, or name its folder in EARLYBIRD_LIB")


def known_to_pkg_config():
    try:
        asked = subprocess.run(["pkg-config", "--variable=libdir", NAME], stdout=subprocess.PIPE, stderr=subprocess.DEVNULL)
    except FileNotFoundError:
        return None
    return asked.stdout.decode().strip()


def shared_library():
    """The bytes of a shared library that has all of the archive."""
    with tempfile.TemporaryDirectory() as folder:
        path = os.path.join(folder, "libearlybird.so")
        whole = ["-Wl,--whole-archive", archive(), "-Wl,--no-whole-archive"]
        try:
            subprocess.run([os.environ.get("CC", "cc"), "-shared", *whole, "-o", path], check=True)
        except FileNotFoundError:
            raise SystemExit("there is no C compiler (cc), which links the shared library") from None
        with open(path, "rb") as file:
            return file.read()


def modules():
    """The files of the package, by their names in a wheel."""
    for at, _, names in sorted(os.walk(os.path.join(HERE, "src"))):
        for name in sorted(names):
            if name.endswith((".py", ".typed")):
                path = os.path.join(at, name)
                yield os.path.relpath(path, os.path.join(HERE, "src")), path


def read(path):
    with open(path, "rb") as file:
        return file.read()


def metadata():
    head = "Metadata-Version: 2.1\nName: %s\nVersion: %s\n" % (NAME, VERSION)
    head += "Summary: A real-time search index for messages, in memory\nLicense: %s\n" % LICENCE
    head += "".join("License-File: %s\n" % name for name in LICENCES)
    head += "Requires-Python: >=3.8\nDescription-Content-Type: text/markdown\n\n"
    return head.encode() + read(os.path.join(HERE, "README.md"))


def write_wheel(folder, files):
    """Writes a wheel of these files, and answers its name."""
    files = {
        **files,
        INFO + "/METADATA": metadata(),
        **{"%s/%s" % (INFO, name): read(os.path.join(HERE, name)) for name in LICENCES},
        INFO + "/WHEEL": ("Wheel-Version: 1.0\nGenerator: %s\nRoot-Is-Purelib: false\nTag: %s\n" % (NAME, TAG)).encode(),
    }
    digest = lambda data: base64.urlsafe_b64encode(hashlib.sha256(data).digest()).rstrip(b"=").decode()
    record = ["%s,sha256=%s,%d" % (name, digest(data), len(data)) for name, data in files.items()]
    files[INFO + "/RECORD"] = "\n".join([*record, INFO + "/RECORD,,", ""]).encode()
    name = "%s-%s-%s.whl" % (NAME, VERSION, TAG)
    with zipfile.ZipFile(os.path.join(folder, name), "w", zipfile.ZIP_DEFLATED) as wheel:
        for path, data in files.items():
            wheel.writestr(path, data)
    return name


def build_wheel(wheel_directory, config_settings=None, metadata_directory=None):
    files = {name: read(path) for name, path in modules()}
    return write_wheel(wheel_directory, {**files, "earlybird/libearlybird.so": shared_library()})


def build_editable(wheel_directory, config_settings=None, metadata_directory=None):
    with open(os.path.join(HERE, "src", "earlybird", "libearlybird.so"), "wb") as file:
        file.write(shared_library())
    return write_wheel(wheel_directory, {"earlybird.pth": (os.path.join(HERE, "src") + "\n").encode()})


def build_sdist(sdist_directory, config_settings=None):
    name = "%s-%s" % (NAME, VERSION)
    with tempfile.TemporaryDirectory() as folder, tarfile.open(os.path.join(sdist_directory, name + ".tar.gz"), "w:gz") as file:
        with open(os.path.join(folder, "PKG-INFO"), "wb") as info:
            info.write(metadata())
        file.add(os.path.join(folder, "PKG-INFO"), name + "/PKG-INFO")
        for path in ("pyproject.toml", "backend.py", "README.md", *LICENCES, "src", "tests"):
            file.add(os.path.join(HERE, path), "%s/%s" % (name, path), filter=lambda it: None if "__pycache__" in it.name or it.name.endswith(".so") else it)
    return name + ".tar.gz"


if __name__ == "__main__":
    print(build_wheel(sys.argv[1]))
