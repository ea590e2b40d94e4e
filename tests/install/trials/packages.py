"""The .deb and the tarball: the same bytes twice, the same files in both, Debian's own judgement, and its removal."""
from __future__ import annotations

import io
import os
import re
import subprocess
import tarfile
from pathlib import Path

from release import records
from release.layout import SHARE, ZSH, ZSH_OF_PACKAGES
from trials.trial import Trial, run

MOST_BYTES = 6_000_000
LIBRARIES = {"libc.so.6", "libm.so.6", "libgcc_s.so.1", "ld-linux-x86-64.so.2", "ld-linux-aarch64.so.1"}


def packed(trial: Trial, program: Path, name: str, *options: str) -> dict[str, bytes]:
    folder = trial.folder / name
    folder.mkdir()
    ended = run([str(trial.top / "scripts/package"), "--program", str(program), *options, str(folder)])
    trial.expect(ended.status == 0, f"scripts/package fails: {ended.err}")
    print(re.sub(r"(?m)^", "install: ", ended.out.replace(f"{folder}/", "").rstrip("\n")))
    return {path.name: path.read_bytes() for path in folder.iterdir()}


def files_of(tarball: bytes, top: str) -> dict[str, bytes]:
    """The files of an archive by their paths below its first folder."""
    found: dict[str, bytes] = {}
    with tarfile.open(fileobj=io.BytesIO(tarball)) as tar:
        for it in tar:
            file = tar.extractfile(it) if it.isfile() else None
            name = it.name.removeprefix("./")
            if file and name.startswith(top):
                found[name[len(top):].replace(ZSH_OF_PACKAGES, ZSH)] = file.read()
    return found


def data_of(package: Path) -> bytes:
    return subprocess.run(["dpkg-deb", "--fsys-tarfile", str(package)], capture_output=True, check=True).stdout


def test_installed(trial: Trial, package: Path) -> None:
    """Installs the package into a folder as Debian does, and purges it."""
    if os.geteuid() != 0:
        trial.skipped.append("not root: installing the package by dpkg wasn't tried")
        return
    root = trial.folder / "root"
    (root / "var/lib/dpkg/info").mkdir(parents=True)
    (root / "var/lib/dpkg/updates").mkdir()
    (root / "var/lib/dpkg/status").touch()
    dpkg = ["dpkg", f"--root={root}", "--force-depends", "--no-triggers"]
    ended = run([*dpkg, "--install", str(package)])
    trial.expect(ended.status == 0, f"dpkg --install fails: {ended.err}")
    ran = run([str(root / "usr/bin/nftrun"), "check", str(root / "usr" / SHARE / "examples/connections/rules.nft"),
               str(root / "usr" / SHARE / "examples/connections/box.txt")])
    trial.expect(ran.out == "accepted tables 1 chains 1 rules 3\n", f"the package's program says {ran.out} {ran.err}")
    ended = run([*dpkg, "--purge", "nftrun"])
    left = [str(path) for path in root.rglob("*") if "var/lib/dpkg" not in str(path) and not path.is_dir()]
    trial.expect(ended.status == 0 and not left and not (root / "usr").exists(), f"left by dpkg --purge: {left}")


def test_lintian(trial: Trial, package: Path) -> None:
    """Whether lintian finds an error, but for the licence, which the owner has to choose."""
    if trial.has("lintian", "what lintian says of the package"):
        but = ["--suppress-tags", "no-copyright-file"]
        ended = run(["lintian", "--allow-root", "--fail-on", "error", *but, str(package)])
        trial.expect(ended.status == 0, f"lintian: {ended.out.strip()}")


def test_package(trial: Trial, name: str, files: dict[str, bytes], tarball: dict[str, bytes]) -> None:
    version = records.version_of(trial.top)
    is_named = re.fullmatch(rf"nftrun_{re.escape(version)}_[a-z0-9]+\.deb", name)
    trial.expect(is_named is not None, f"{name}: a wrong name")
    package = trial.folder / name
    package.write_bytes(files[name])
    own = files_of(data_of(package), "usr/")
    for path in ("changelog.gz", "copyright"):
        own.pop(f"{SHARE}/{path}", None)
    trial.same("the tarball", set(own), set(tarball))
    trial.expect(own == tarball, "the tarball has a file otherwise than the package")
    trial.expect(len(files[name]) <= MOST_BYTES, f"{name} has {len(files[name])} bytes, more than {MOST_BYTES}")
    test_lintian(trial, package)
    test_installed(trial, package)


def test_packages(trial: Trial, program: Path) -> None:
    """Packs twice. Without Debian's tools the tarball alone is tried, which is told at the end."""
    has_package = trial.has("dpkg-deb", "the package") and trial.has("dpkg-shlibdeps", "the package")
    options = () if has_package else ("--tarball",)
    once, again = packed(trial, program, "once", *options), packed(trial, program, "again", *options)
    trial.expect(once == again, "two packages of one commit differ")
    names = {Path(it).suffix: it for it in once}
    top = f"{names['.gz'][:-len('.tar.gz')]}/"
    tarball = files_of(once[names[".gz"]], top)
    needed = set(re.findall(r"\(NEEDED\).*\[(.*)\]", run(["readelf", "-d", str(program)]).out))
    trial.expect(needed <= LIBRARIES, f"the program needs {sorted(needed - LIBRARIES)}")
    if has_package:
        test_package(trial, names[".deb"], once, tarball)
