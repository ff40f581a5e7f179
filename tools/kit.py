"""The kit that is installed, for tools that call parts of it which its authors may change."""
import importlib.machinery
import importlib.util
import os
import shutil
import sys


def module_of_kit(name):
    """One of the files in the kit's folder of commands, as a Python module: `rt`, or `rtlib.py`."""
    path = os.path.join(os.path.dirname(os.path.realpath(shutil.which("rt"))), name)
    loader = importlib.machinery.SourceFileLoader(name.removesuffix(".py"), path)
    made = importlib.util.module_from_spec(importlib.util.spec_from_loader(loader.name, loader))
    sys.modules[loader.name] = made
    loader.exec_module(made)
    return made


def linked_kit(room, scripts):
    """A kit in a folder of its own: links to what the installed one has, but for programs that scripts stand for.

    A script is named by its program's path in the kit, and gets `{real}` for the path of the real one.
    """
    real = os.path.dirname(os.path.dirname(os.path.realpath(shutil.which("rt"))))
    kit = f"{room}/kit"
    for folder in ("bin", "toolchain/bin"):
        os.makedirs(f"{kit}/{folder}")
        for name in os.listdir(f"{real}/{folder}"):
            if name in ("rt", "rtlib.py"):  # these look for the kit where they stand
                shutil.copy2(f"{real}/{folder}/{name}", f"{kit}/{folder}/{name}")
            elif f"{folder}/{name}" not in scripts:
                os.symlink(f"{real}/{folder}/{name}", f"{kit}/{folder}/{name}")
    os.symlink(f"{real}/toolchain/lib", f"{kit}/toolchain/lib")
    for name in set(os.listdir(real)) - {"bin", "toolchain"}:
        os.symlink(f"{real}/{name}", f"{kit}/{name}")
    for path, text in scripts.items():
        with open(f"{kit}/{path}", "w", encoding="utf-8") as file:
            file.write(text.format(real=f"{real}/{path}"))
        os.chmod(f"{kit}/{path}", 0o755)
    return kit
