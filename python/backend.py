"""Makes the wheel for pip (PEP 517): the package and the shared object in it. Needs nothing but Python."""
import base64
import hashlib
import os
import sys
import zipfile

HERE = os.path.dirname(os.path.realpath(__file__))
ROOT = os.path.dirname(HERE)
LICENCES = ["LICENSE-MIT", "LICENSE-APACHE", "NOTICE"]
TAG = "py3-none-linux_x86_64"


def version():
    with open(os.path.join(ROOT, "VERSION")) as file:
        return file.read().strip()


def metadata():
    with open(os.path.join(HERE, "README.md"), encoding="utf-8") as file:
        readme = file.read()
    return (f"Metadata-Version: 2.1\nName: viskorrel\nVersion: {version()}\n"
            "Summary: 3D measures between geometries, by a proved library\nLicense: MIT OR Apache-2.0\nRequires-Python: >=3.9\n"
            f"Description-Content-Type: text/markdown\n\n{readme}").encode()


def shared_object():
    """The library that goes into the wheel: that of VISKORREL_LIBRARY, else the repository's own."""
    sys.path.insert(0, HERE)
    from viskorrel._library import NAME, VARIABLE, in_folder
    named = os.environ.get(VARIABLE)
    own = os.path.join(ROOT, "target", NAME)
    if not named and not os.path.exists(own):
        raise SystemExit(f"no {own}: `make library` in the repository's top folder makes it, or {VARIABLE} names one that was built elsewhere")
    return in_folder(named or own)


def build_wheel(wheel_directory, config_settings=None, metadata_directory=None):
    info = f"viskorrel-{version()}.dist-info"
    parts = {f"viskorrel/{name}": read(HERE, "viskorrel", name) for name in sorted(os.listdir(os.path.join(HERE, "viskorrel")))
             if name.endswith(".py")}
    parts["viskorrel/libviskorrel.so"] = read(shared_object())
    parts.update({f"{info}/licenses/{name}": read(ROOT, name) for name in LICENCES})
    parts[f"{info}/METADATA"] = metadata()
    parts[f"{info}/WHEEL"] = f"Wheel-Version: 1.0\nGenerator: viskorrel\nRoot-Is-Purelib: false\nTag: {TAG}\n".encode()
    sums = [f"{name},sha256={summed(content)},{len(content)}" for name, content in parts.items()]
    parts[f"{info}/RECORD"] = "\n".join([*sums, f"{info}/RECORD,,", ""]).encode()
    wheel = f"viskorrel-{version()}-{TAG}.whl"
    with zipfile.ZipFile(os.path.join(wheel_directory, wheel), "w", zipfile.ZIP_DEFLATED) as file:
        for name, content in parts.items():
            entry = zipfile.ZipInfo(name)  # of a fixed date: the same content gives the same wheel
            entry.external_attr, entry.compress_type = 0o644 << 16, zipfile.ZIP_DEFLATED
            file.writestr(entry, content)
    return wheel


def build_sdist(sdist_directory, config_settings=None):
    raise SystemExit("the sources are the repository; a wheel is what can be made of them")


def read(*parts):
    with open(os.path.join(*parts), "rb") as file:
        return file.read()


def summed(content):
    return base64.urlsafe_b64encode(hashlib.sha256(content).digest()).rstrip(b"=").decode()
