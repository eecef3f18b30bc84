"""Makes the wheel of the module, with the shared library in it where that is at hand, by the standard library alone (PEP 517)."""
import base64
import hashlib
import pathlib
import re
import sysconfig
import zipfile

HERE = pathlib.Path(__file__).resolve().parent
STAMP = (1980, 1, 1, 0, 0, 0)


def _project(field):
    return re.search(rf'^{field} = "(.*)"$', (HERE / "pyproject.toml").read_text(), re.M)[1]


def _library():
    """libnt6861.so of this version: of the repository, or of the folder that it was installed into"""
    soname = f"libnt6861.so.{_project('version').split('.')[0]}"
    found = [folder / soname for folder in (HERE / "../../target/lib", HERE / "../../../lib") if (folder / soname).exists()]
    return [(f"nt6861/{soname}", found[0].read_bytes())] if found else []


def build_wheel(wheel_directory, config_settings=None, metadata_directory=None):
    name, version = _project("name"), _project("version")
    files = [(f"nt6861/{path.name}", path.read_bytes()) for path in sorted((HERE / "nt6861").iterdir()) if path.suffix in (".py", ".typed")]
    library = _library()
    platform = re.sub(r"[-.]", "_", sysconfig.get_platform()) if library else "any"
    info = f"{name}-{version}.dist-info"
    metadata = f"Metadata-Version: 2.1\nName: {name}\nVersion: {version}\nSummary: {_project('description')}\nRequires-Python: {_project('requires-python')}\n"
    wheel = f"Wheel-Version: 1.0\nGenerator: build_wheel\nRoot-Is-Purelib: {'false' if library else 'true'}\nTag: py3-none-{platform}\n"
    files += library + [(f"{info}/METADATA", metadata.encode()), (f"{info}/WHEEL", wheel.encode())]
    record = ""
    for path, data in files:
        digest = base64.urlsafe_b64encode(hashlib.sha256(data).digest()).rstrip(b"=").decode()
        record += f"{path},sha256={digest},{len(data)}\n"
    files.append((f"{info}/RECORD", f"{record}{info}/RECORD,,\n".encode()))
    file = f"{name}-{version}-py3-none-{platform}.whl"
    with zipfile.ZipFile(pathlib.Path(wheel_directory) / file, "w", zipfile.ZIP_DEFLATED) as archive:
        for path, data in files:
            entry = zipfile.ZipInfo(path, STAMP)
            entry.external_attr = 0o644 << 16
            archive.writestr(entry, data, zipfile.ZIP_DEFLATED)
    return file


def get_requires_for_build_wheel(config_settings=None):
    return []
