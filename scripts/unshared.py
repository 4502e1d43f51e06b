"""Runs a script where `rt check` doesn't see what checks in other checkouts on this machine kept, so that what it measures is proved from nothing."""
import os
import shutil
import subprocess
import sys

MARK = "SAA_UNSHARED"


def store():
    """Returns the folder beside the kit in which `rt` notes what checks in all checkouts kept."""
    return f"{os.path.dirname(os.path.dirname(os.path.dirname(os.path.realpath(shutil.which('rt')))))}/rattle-kept"


def begin():
    """Runs this script again where that folder is an empty one, and ends with its status; returns where that is done, or nothing was kept.

    Only root can hide a folder from a process. For others the script goes on where no check was noted yet, and else says so and ends with status 2.
    """
    if os.environ.get(MARK) or not os.path.isdir(store()):
        return
    if os.geteuid() or not shutil.which("unshare"):
        if not os.listdir(store()):
            return
        print(f"{os.path.basename(sys.argv[0])}: checks begin with what {store()} names: run this as root, with util-linux' unshare, or where there is none", file=sys.stderr)
        sys.exit(2)
    hidden = f"mount -t tmpfs none '{store()}' && exec \"$0\" \"$@\""
    run = subprocess.run(["unshare", "--mount", "sh", "-c", hidden, sys.executable, *sys.argv], env={**os.environ, MARK: "1"}, check=False)
    sys.exit(run.returncode)
