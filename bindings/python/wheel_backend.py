"""Makes the wheel of `jolunza`, with the standard library alone, so that `pip install bindings/python` needs no network. The wheel contains
the module, as a package, beside the library that the module would load here (`library_path`). pip calls `build_wheel`; package.sh calls
`wheel_backend.py FOLDER`. A source distribution would lack the library, so there is none.
"""

import base64
import hashlib
import pathlib
import re
import sys
import zipfile

HERE = pathlib.Path(__file__).resolve().parent
sys.path.insert(0, str(HERE))

# The library wants glibc 2.14; this is the next tag that pip knows.
TAG = "py3-none-manylinux_2_17_x86_64"


def described():
    """The metadata of pyproject.toml, by its names there."""
    text = (HERE / "pyproject.toml").read_text(encoding="utf-8")
    return dict(re.findall(r'^([\w-]+) = "(.*)"$', text.partition("[project]")[2], re.M))


def library():
    import jolunza

    path = pathlib.Path(jolunza.library_path())
    if not path.is_file():
        raise FileNotFoundError(f"there is no {path}: JOLUNZA_LIB names its folder")
    return path.read_bytes()


def files_of(told):
    """The paths in the wheel, with their bytes, but for RECORD."""
    name, information = told["name"], f"{told['name']}-{told['version']}.dist-info"
    fields = {"Metadata-Version": "2.1", "Name": name, "Version": told["version"], "Summary": told["description"],
              "License": told["license"], "Requires-Python": told["requires-python"]}
    metadata = "".join(f"{field}: {value}\n" for field, value in fields.items())
    licences = {f"{information}/{file}": (HERE.parent.parent / file).read_bytes() for file in ("LICENSE-MIT", "LICENSE-APACHE", "NOTICE")}
    return {
        f"{name}/__init__.py": (HERE / "jolunza.py").read_bytes(),
        f"{name}/py.typed": b"",
        f"{name}/libjolunza.so.1": library(),
        f"{information}/METADATA": metadata.encode(),
        f"{information}/WHEEL": f"Wheel-Version: 1.0\nGenerator: wheel_backend\nRoot-Is-Purelib: false\nTag: {TAG}\n".encode(),
        **licences,
    }


def record(path, content):
    digest = base64.urlsafe_b64encode(hashlib.sha256(content).digest()).rstrip(b"=").decode()
    return f"{path},sha256={digest},{len(content)}\n"


def build_wheel(wheel_directory, config_settings=None, metadata_directory=None):
    told = described()
    files = files_of(told)
    path = f"{told['name']}-{told['version']}.dist-info/RECORD"
    files[path] = ("".join(record(*file) for file in files.items()) + f"{path},,\n").encode()
    wheel = f"{told['name']}-{told['version']}-{TAG}.whl"
    with zipfile.ZipFile(pathlib.Path(wheel_directory) / wheel, "w", zipfile.ZIP_DEFLATED) as archive:
        for name, content in files.items():
            archive.writestr(zipfile.ZipInfo(name, (2026, 1, 1, 0, 0, 0)), content, zipfile.ZIP_DEFLATED)
    return wheel


if __name__ == "__main__":
    print(build_wheel(sys.argv[1]))
