"""Scratch repositories, in which the crates of tests/ and the bench are beside those of crates/."""
import functools, hashlib, os, shutil, subprocess

ROOT = os.path.realpath(f"{os.path.dirname(os.path.realpath(__file__))}/..")


def listed(file):
    """Returns the crates that a file lists, by name: the rest of each line after its name."""
    with open(file, encoding="utf-8") as it:
        lines = [line.partition(":") for line in it if not line.startswith("#")]
    return {name.split()[0]: (name.strip(), below.split()) for name, colon, below in lines if colon}


def crates_of_tests():
    """Returns the crates of tests/, as `listed` does."""
    return listed(f"{ROOT}/tests/crates.list")


def below(name, crates):
    """Returns the names of the repository's crates that this one needs, itself among them."""
    found, left = [], [name]
    while left:
        it = left.pop()
        if it in crates and it not in found:
            found.append(it)
            left += crates[it][1]
    return found


def folder_of(name):
    """Returns the folder of a crate in the repository."""
    if name not in crates_of_tests():
        return f"crates/{name}"
    return "bench/ours" if name == "bench" else f"tests/{name}"


def sources(name):
    """Returns the files of a crate without its edits, each as its path in the crate's folder and its place. In a crate of tests, a file NAME.rt.of names the file of the repository that NAME.rt is."""
    in_tests = name in crates_of_tests()
    folder = f"{ROOT}/{folder_of(name)}"
    for at, folders, files in os.walk(folder):
        folders[:] = sorted({*folders} - {"out", "must-fail"})
        for file in sorted(files):
            path, lies = os.path.relpath(f"{at}/{file}", folder), f"{at}/{file}"
            if in_tests and path.endswith(".of"):
                with open(lies, encoding="utf-8") as it:
                    lies = f"{ROOT}/{it.read().strip()}"
            yield (path.removesuffix(".txt").removesuffix(".of") if in_tests else path), lies


def with_tests():
    """Returns the names of the crates of tests/ and the bench that have tests: one without is there for the others."""
    return [it for it in crates_of_tests() if any("#[test]" in open(file, encoding="utf-8").read() for _, file in sources(it))]


@functools.cache
def version():
    """Returns the kit's version."""
    return subprocess.run(["rt", "version"], check=True, capture_output=True).stdout


def files_at(path):
    """Returns a file of the repository, or those below a folder, without made files."""
    if os.path.isfile(f"{ROOT}/{path}"):
        return [path]
    found = []
    for at, folders, files in os.walk(f"{ROOT}/{path}"):
        folders[:] = sorted({*folders} - {"out", "target", "__pycache__"})
        found += sorted(os.path.relpath(f"{at}/{it}", ROOT) for it in files)
    return found


def contents(file, with_comments):
    """Returns a file's contents, of the sources of a crate perhaps without the lines that are comments."""
    with open(file, "rb") as it:
        found = it.read()
    if with_comments or not file.endswith((".rt", ".rt.txt", ".antt")):
        return found
    mark = b"--" if file.endswith(".antt") else b"//"
    return b"\n".join(line for line in found.split(b"\n") if not line.lstrip().startswith(mark))


def key_of(names, paths=(), with_comments=False):
    """Returns a digest of the kit, of the contents of these crates and those below them, and of these files and folders."""
    crates = {**listed(f"{ROOT}/crates.txt"), **crates_of_tests()}
    found = hashlib.sha256(version())
    files = [(it, f"{ROOT}/{it}") for path in paths for it in files_at(path)]
    for crate in sorted({it for name in names for it in below(name, crates)}):
        found.update(repr(crates[crate]).encode())
        files += [(f"{crate}/{path}", file) for path, file in sources(crate)]
    for path, file in files:
        found.update(f"{path}\n".encode() + hashlib.sha256(contents(file, with_comments)).digest())
    return found.hexdigest()[:40]


def make(folder, names):
    """Makes a repository of these crates, and those that they need, in an empty folder."""
    crates = {**listed(f"{ROOT}/crates.txt"), **crates_of_tests()}
    needed = {it: None for name in names for it in below(name, crates)}
    subprocess.run(["git", "init", "-q", folder], check=True)
    shutil.copy(f"{ROOT}/HANDLES", f"{folder}/HANDLES")
    with open(f"{folder}/crates.txt", "w", encoding="utf-8") as to:
        to.writelines(f"{crates[it][0]}: {' '.join(crates[it][1])}\n" for it in needed)
    for name in needed:
        for path, file in sources(name):
            to = f"{folder}/crates/{name}/{path}"
            os.makedirs(os.path.dirname(to), exist_ok=True)
            shutil.copy(file, to)
