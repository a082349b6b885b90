"""What the benches beside this file share: where the others lie, how a set is written, and what several runs take."""
import os
import pathlib
import sys
from collections import namedtuple

sys.path.insert(1, str(pathlib.Path(__file__).resolve().parents[1] / "tests/oracle"))
from trying import run  # noqa: E402

# A file of these bytes and then so many zeros that it has this size
Sparse = namedtuple("Sparse", "head size")


def write(folder, make):
    """Writes a set from a process of its own, since a program that is begun later counts this one's peak memory as its
    own, and gives how many bytes its tables have."""
    folder.mkdir(parents=True, exist_ok=True)
    child = os.fork()
    if child == 0:
        for name, content in make().items():
            path, same = folder / name, folder.parent / f"{folder.name}.sparse"
            path.parent.mkdir(exist_ok=True)
            if not isinstance(content, Sparse):
                path.write_bytes(content)
                continue
            if not same.exists():
                same.write_bytes(content.head)
                os.truncate(same, content.size)
            os.link(same, path)
        os._exit(0)
    if os.waitpid(child, 0)[1]:
        sys.exit(f"{folder} couldn't be written")
    return sum(path.stat().st_size for path in folder.glob("*.dat"))


def best(count, command, folder, limit, **more):
    """The shortest of so many runs, with the most memory of any; None where one takes too long."""
    answers = []
    for _ in range(count):
        answers.append(run(command, limit, cwd=folder, **more))
        if answers[-1].seconds >= limit:
            return None
    return min(answers)._replace(peak=max(answer.peak for answer in answers))


def processor_time():
    """The ticks of all processors since the start, and how many of them a virtual machine's host gave to others."""
    times = [int(word) for word in pathlib.Path("/proc/stat").read_text().split("\n")[0].split()[1:9]]
    return sum(times), times[7]
