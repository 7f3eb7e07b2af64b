"""Runs commands in a system of their own: this one's /usr and /etc without /usr/local, as a user who is not root, without a
network. The kit is not there, and neither is what was installed for this machine or its users, except the compiler of Rust.

tests/snippets.py runs the commands of the documents so. It needs root, and unshare of util-linux.
"""
import os
import shutil
import subprocess
from pathlib import Path

USER = "1000"
# Where rustup keeps the commands and the compilers, if they are not in /usr.
OF_RUST = [
    Path(os.environ.get(name) or Path.home() / folder)
    for name, folder in (("CARGO_HOME", ".cargo"), ("RUSTUP_HOME", ".rustup"))
]
PATH = f"{OF_RUST[0] / 'bin'}:/usr/bin:/bin"
# Makes the system in a folder, $1, and runs a command, $3, in a folder, $2. The folders after these are there too.
SETUP = """set -e
root=$1 folder=$2 command=$3
shift 3
mount --make-rprivate /
mount -t tmpfs none "$root"
cd "$root"
mkdir usr etc proc dev
mkdir -m 1777 tmp
mount --rbind /usr usr
mount --rbind /etc etc
mount -t tmpfs none usr/local
mount -t proc proc proc
for name in bin sbin lib lib32 lib64; do
    if [ -L "/$name" ]; then
        cp -P "/$name" .
    elif [ -d "/$name" ]; then
        mkdir "$name" && mount --rbind "/$name" "$name"
    fi
done
for name in null zero full random urandom; do : >"dev/$name" && mount --bind "/dev/$name" "dev/$name"; done
for name in "$@"; do mkdir -p ".$name" && mount --bind "$name" ".$name"; done
chroot=$(PATH=$PATH:/usr/sbin:/sbin command -v chroot)
exec "$chroot" --userspec=%s:%s "$root" /bin/sh -c 'cd "$0" && eval "$1"' "$folder" "$command"
""" % (
    USER,
    USER,
)
# What must hold in it: the user is not root, there is no kit, only a network of its own, and no library.
HOLDS = f"""[ "$(id -u)" = {USER} ] && ! command -v rt &&
[ "$(tail -n +3 /proc/net/dev | cut -d : -f 1 | tr -d ' ')" = lo ] &&
[ -z "$(ls -d /usr/lib/*/*h3_qpack* /usr/local/*/*h3_qpack* /usr/include/h3_qpack* 2>/dev/null)" ]"""


def words_of(room, folder, command):
    """Returns the words of a call that runs a command of the shell there, in a folder of a room, which is there too."""
    shared = [str(it) for it in (room, *OF_RUST) if it.is_dir()]
    root = room.with_name(f"{room.name}-root")
    root.mkdir(exist_ok=True)
    call = ["unshare", "--net", "--mount", "--pid", "--fork", "--kill-child", "sh", "-c", SETUP, "sh"]
    return [*call, str(root), str(folder), command, *shared]


def environment_of(room):
    """Returns the variables that commands have there."""
    home = room / "home"
    home.mkdir(exist_ok=True)
    rustup = {"RUSTUP_HOME": str(OF_RUST[1])} if OF_RUST[1].is_dir() else {}
    return {"PATH": PATH, "HOME": str(home), "LANG": "C.UTF-8", "CARGO_HOME": str(home / "cargo"), **rustup}


def hand_over(room):
    """Makes the user the owner of a room."""
    subprocess.run(["chown", "-R", f"{USER}:{USER}", room], check=True)


def why_not(room):
    """Returns why no such system can be made, or nothing."""
    if os.geteuid() != 0 or not shutil.which("unshare"):
        return "without root and unshare"
    ran = subprocess.run(words_of(room, room, HOLDS), env=environment_of(room), capture_output=True, text=True, check=False)
    return f"as this failed: {ran.stderr.strip() or HOLDS}" if ran.returncode else ""
