"""Where a stranger installs: this machine, with nothing in the environment but PATH and HOME, or a fresh Debian."""

from __future__ import annotations

import os
import pathlib
import shlex
import shutil
import subprocess
from collections.abc import Mapping

from stranger import NONE, PATH, copy, run

SUITE = "bookworm"
# what the pages name for each language, and no more
PACKAGES = (
    "make gcc g++ libc6-dev pkg-config cmake meson ninja-build"
    " python3 python3-venv python3-pip python3-setuptools python3-wheel python3-pytest"
).split()
USER, HOME = "stranger", "/home/stranger"
SECONDS = 1800  # for a download


class Place:
    """This machine. Paths here are those of its users."""

    def __init__(self, room: pathlib.Path) -> None:
        self.home = str(room)
        self.clone = str(copy(room / "a clone"))

    def outside(self, path: str) -> pathlib.Path:
        """A path of the place as this process has it."""
        return pathlib.Path(path)

    def write(self, path: str, text: str) -> None:
        file = self.outside(path)
        file.parent.mkdir(parents=True, exist_ok=True)
        file.write_text(text)

    def read(self, path: str) -> str:
        return self.outside(path).read_text(encoding="utf-8")

    def shell(self, code: str, cwd: str, environment: Mapping[str, str] = NONE, status: int = 0, root: bool = False) -> str:
        """What commands of the shell print on both streams."""
        return run(["bash", "-c", code], pathlib.Path(cwd), {"HOME": self.home, **environment}, status)


class Debian(Place):
    """A fresh Debian in a folder: a user without rights, and a clone in the user's home."""

    def __init__(self, folder: pathlib.Path) -> None:
        self.folder, self.home = folder / "debian", HOME
        command = ["debootstrap", "--variant=minbase", f"--include={','.join(PACKAGES)}", SUITE, str(self.folder)]
        done = subprocess.run(command, stdout=subprocess.PIPE, stderr=subprocess.STDOUT, text=True, timeout=SECONDS)
        assert done.returncode == 0, done.stdout[-3000:]
        (self.folder / "dev/null").chmod(0o666)
        self._enter(["useradd", "--create-home", "--shell", "/bin/bash", USER], "/")
        self.clone = f"{HOME}/tracehost"
        copy(self.outside(self.clone))
        self._enter(["chown", "-R", f"{USER}:", HOME], "/")

    def outside(self, path: str) -> pathlib.Path:
        return self.folder / path.lstrip("/")

    def write(self, path: str, text: str) -> None:
        super().write(path, text)
        owner = self.outside(HOME).stat()
        file = self.outside(path)
        for made in (file, *file.parents):
            if made == self.outside(HOME):
                break
            os.chown(made, owner.st_uid, owner.st_gid)

    def shell(self, code: str, cwd: str, environment: Mapping[str, str] = NONE, status: int = 0, root: bool = False) -> str:
        given = {"PATH": f"{PATH}:/usr/sbin:/sbin", "HOME": "/root" if root else HOME, **environment}
        words = ["env", "-i", *(f"{name}={value}" for name, value in given.items()), "bash", "-c", code]
        return self._enter(
            words if root else ["setpriv", f"--reuid={USER}", f"--regid={USER}", "--init-groups", *words], cwd, status
        )

    def _enter(self, words: list[str], cwd: str, status: int = 0) -> str:
        """Runs a command there, with /proc, and with this machine's Rust, since Debian's is too old for the crate."""
        mounts = [f"mount -t proc none '{self.folder}/proc'"]
        for name in (".cargo", ".rustup"):
            if (pathlib.Path.home() / name).exists():
                place = self.folder / "opt" / name
                place.mkdir(exist_ok=True)
                mounts.append(f"mount --bind '{pathlib.Path.home() / name}' '{place}'")
        inside = f"cd {shlex.quote(cwd)} && exec {shlex.join(words)}"
        code = f"{' && '.join(mounts)} && exec chroot '{self.folder}' bash -c {shlex.quote(inside)}"
        return run(["unshare", "-m", "sh", "-c", code], self.folder, {"PATH": f"{PATH}:/usr/sbin:/sbin"}, status)


def rust(place: Place) -> dict[str, str]:
    """The environment in which cargo is found there; {} if this machine has none."""
    if shutil.which("cargo") is None:
        return {}
    if isinstance(place, Debian):
        return {"PATH": f"/opt/.cargo/bin:{PATH}", "CARGO_HOME": f"{place.home}/.cargo", "RUSTUP_HOME": "/opt/.rustup"}
    folder = os.path.dirname(str(shutil.which("cargo")))
    own = pathlib.Path.home()
    return {"PATH": f"{folder}:{PATH}", "CARGO_HOME": str(own / ".cargo"), "RUSTUP_HOME": str(own / ".rustup")}
