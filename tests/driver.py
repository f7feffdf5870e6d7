"""What the tests share: running the program, and saying what differs.

A check has a trouble, a text that says what is wrong, or none.
"""

import concurrent.futures
import functools
import os
import resource
import signal
import stat
import subprocess
import threading
import time

HOME = os.path.dirname(os.path.dirname(os.path.realpath(__file__)))
EXAMPLES = os.path.join(HOME, "examples")
# Folders that checking and building make. A fresh clone has none of them.
BUILT = ("out", "__pycache__")
PATIENCE = 60  # seconds
SHOWN = 1200  # characters of a text that are shown whole
STREAMS = ("stdout", "stderr")

# No run may leave a core dump.
resource.setrlimit(resource.RLIMIT_CORE, (0, resource.getrlimit(resource.RLIMIT_CORE)[1]))


# ---- files

def read(path):
    with open(path, "rb") as file:
        return file.read()


def text(path, home=HOME):
    """The text of a file of the repository, or of a copy of it."""
    return read(os.path.join(home, path)).decode()


def write(folder, files, mode=None):
    """Writes files, texts or bytes by their names, to a folder, and makes the folders that are missing."""
    os.makedirs(folder, exist_ok=True)
    for name, text in files.items():
        path = os.path.join(folder, name)
        if os.sep in name:
            os.makedirs(os.path.dirname(path), exist_ok=True)
        with open(path, "wb") as file:
            file.write(text if isinstance(text, bytes) else text.encode())
        if mode is not None:
            os.chmod(path, mode)


def write_program(path, text):
    write(os.path.dirname(path), {os.path.basename(path): text}, 0o755)


def link_tools(folder, without):
    """Makes a folder with links to all commands but one."""
    os.mkdir(folder)
    for path in (os.path.join(place, name) for place in ("/bin", "/usr/bin") for name in os.listdir(place)):
        link = os.path.join(folder, os.path.basename(path))
        if os.path.basename(path) != without and not os.path.lexists(link):
            os.symlink(path, link)
    return folder


def tree(folder):
    """What is below a folder: of each path its mode, and the bytes of a file or the target of a link."""
    paths = (os.path.join(at, name) for at, folders, files in os.walk(folder) for name in (*folders, *files))
    return {os.path.relpath(it, folder): (stat.filemode(os.lstat(it).st_mode), contents(it)) for it in paths}


def contents(path):
    """The bytes of a file or of the target of a link, or nothing for a folder."""
    if os.path.islink(path):
        return os.fsencode(os.readlink(path))
    return None if os.path.isdir(path) else read(path)


@functools.cache
def repository_files():
    """All files of the repository but what is built."""
    found = []
    for folder, folders, names in os.walk(HOME):
        folders[:] = sorted(it for it in folders if it not in (".git", *BUILT))
        found += [os.path.relpath(os.path.join(folder, it), HOME) for it in sorted(names)]
    return found


def examples():
    """The arguments of each example, its feature file last. Its own are in NAME.arguments, one a line."""
    for name in sorted(os.listdir(EXAMPLES)):
        if name.endswith(".feature"):
            arguments = os.path.join(EXAMPLES, name.removesuffix(".feature") + ".arguments")
            own = read(arguments).split(b"\n")[:-1] if os.path.exists(arguments) else []
            yield [os.fsdecode(it) for it in own] + [os.path.join("examples", name)]


def feature(*steps, name="f", scenario="s"):
    """The text of a feature with one scenario. A step with a block is several lines."""
    lines = [f"Feature: {name}", f"Scenario: {scenario}", *steps]
    return "\n".join(lines) + "\n"


# ---- running the program

@functools.cache
def program():
    """The path of the program that is tested: GHERKIN_RUN of the environment, or the one that ./run runs."""
    named = os.environ.get("GHERKIN_RUN") or subprocess.run(
        [os.path.join(HOME, "run"), "--which"], stdin=subprocess.DEVNULL, stdout=subprocess.PIPE, check=True, text=True).stdout[:-1]
    return os.path.abspath(named)


def start(program, arguments, folder=HOME, environment=None, *, patience=PATIENCE,
          stdout=subprocess.PIPE, stderr=subprocess.PIPE, before=None):
    """Runs the program, with nothing on its standard input.

    Returns its status, and what was read of its standard output and standard error. The status of
    a run that doesn't end is a text. `before` is called in the new process, before the program."""
    with subprocess.Popen([program, *arguments], cwd=folder, stdin=subprocess.DEVNULL, stdout=stdout, stderr=stderr,
                          env=environment, preexec_fn=before, start_new_session=True) as process:
        # With a time limit of its own, `communicate` takes as long as a short run does.
        watch = threading.Timer(patience, os.killpg, (process.pid, signal.SIGKILL))
        watch.start()
        out, err = process.communicate()
        if not watch.is_alive():
            return f"not ended after {patience} seconds", b"", b""
        watch.cancel()
    return process.returncode, out or b"", err or b""


def wait_until(holds, seconds=PATIENCE):
    end = time.monotonic() + seconds
    while not holds() and time.monotonic() < end:
        time.sleep(0.02)


def build_shim(room):
    """Builds the library of tests/refuse.c, which refuses memory and fails calls, in a folder."""
    source = os.path.join(HOME, "tests", "refuse.c")
    subprocess.run(["cc", "-shared", "-fPIC", "-O2", "-o", os.path.join(room, "refuse.so"), source], check=True)


def limited(room, **limits):
    """The environment in which that library limits the program."""
    return {**os.environ, **{name: str(limit) for name, limit in limits.items()},
            "LD_PRELOAD": os.path.join(room, "refuse.so")}


def processor_time():
    used = resource.getrusage(resource.RUSAGE_CHILDREN)
    return used.ru_utime + used.ru_stime


def processors():
    return len(os.sched_getaffinity(0))


def on_all_processors(work, items):
    """What `work` returns for each item, in order. Several items are worked on at a time."""
    with concurrent.futures.ThreadPoolExecutor(processors()) as pool:
        yield from pool.map(work, items)


def in_processes(work, items):
    """The same in processes, for work whose time Python itself takes. `work`, the items and the results are copied."""
    with concurrent.futures.ProcessPoolExecutor(processors()) as pool:
        yield from pool.map(work, items)


# ---- saying what differs

def cut(text):
    """A text without its middle if it is long."""
    return text if len(text) <= SHOWN else text[:800] + " .. " + text[-300:]


def shown(text):
    """Bytes as a part of a message."""
    return repr(cut(text.decode("utf-8", "backslashreplace")))


def stream_difference(name, printed, wanted):
    """What was printed on a stream, and what has to be, in words. Of long texts a part is shown."""
    if max(len(printed), len(wanted)) <= SHOWN:
        return f"  {name} {shown(printed)}\n    and not {shown(wanted)}"
    at = len(os.path.commonprefix([printed, wanted]))
    part = slice(max(0, at - 40), at + 80)
    return f"  {name}, byte {at}: {shown(printed[part])}\n    and not {shown(wanted[part])}"


def trouble(name, ended, wanted):
    """What is wrong with a run of this name, if it ended otherwise. Both ends are a status and the bytes on two streams."""
    found = [] if ended[0] == wanted[0] else [f"  status {ended[0]}, and not {wanted[0]}"]
    for name_of_stream, printed, text in zip(STREAMS, ended[1:], wanted[1:]):
        if printed != text:
            found.append(stream_difference(name_of_stream, printed, text))
    return "\n".join([f"{name}:", *found]) if found else ""


def unless(claim, holds, *shown):
    return "" if holds else "\n".join([claim, *(f"  {it}" for it in shown)])
