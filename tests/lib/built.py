"""Copies libraries that `rt ci` has just proved to a copy of the repository: see tests/take-built."""
import os
import shutil
import sys


def newest(folder):
    """Returns the time at which the newest file of a crate outside of out/ was written."""
    times = []
    for at, folders, names in os.walk(folder):
        folders[:] = [it for it in folders if it != "out"]
        times += [os.stat(f"{at}/{name}").st_mtime for name in names]
    return max(times)


def libraries(root, name):
    """Returns the libraries on which a crate depends, lowest first, each with its directory and its stamp, by the kit's
    own module, or an error if that has an unexpected form.
    """
    sys.path.insert(0, os.path.dirname(os.path.realpath(shutil.which("rt") or "rt")))
    try:
        import rtlib

        folder = f"{root}/crates/{name}"
        os.chdir(folder)
        return [(it.name, it.folder, it.stamp()) for it in rtlib.Crate(folder, root, {}, name=None).below()], None
    except (ImportError, AttributeError, TypeError) as error:
        return [], error


def copy_files(root, to):
    """Copies the repository's files, except for its history and build output, which `rt ci` may write meanwhile."""

    def left_out(folder, names):
        is_crate = os.path.dirname(folder) == f"{root}/crates"
        return [it for it in names if it == ".git" and folder == root or it == "out" and is_crate]

    shutil.copytree(root, to, symlinks=True, ignore=left_out, dirs_exist_ok=True)


def take(name, folder, stamp, to):
    """Copies a library with its stamp, unless it is there already. Returns the reason if that fails, otherwise ""."""
    made = f"{folder}/out/rlib/{name}.rlib"
    if not os.path.isdir(made):
        return f"{name} is not built"
    if os.stat(made).st_mtime < newest(folder):
        return f"{name} has changed since it was built"
    target = f"{to}/crates/{name}/out/rlib"
    if os.path.isdir(target):
        return ""
    shutil.copytree(made, f"{target}/{name}.rlib")
    with open(f"{target}/stamp", "w", encoding="utf-8") as file:
        file.write(stamp)
    return ""


def take_built(root, name, to):
    """Copies the files, unless they are there already, and the libraries on which a crate depends, up to the first that
    cannot be copied. Prints a report of one line, and returns whether all were copied, and whether the kit's module has
    the expected form.
    """
    if not os.path.isdir(f"{to}/crates"):
        copy_files(root, to)
    below, error = libraries(root, name)
    count, why = 0, error and f"the kit's rtlib has another form: {error}"
    while not why and count < len(below):
        why = take(*below[count], to)
        count += not why
    end = f": {why}; rt proves the others anew" if why else ""
    print(f"take-built: took {count} of {len(below)} libraries below {name}{end}", flush=True)
    return not why, error is None
