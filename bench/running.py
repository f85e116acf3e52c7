"""What the scripts here share: scripts of events are written, programs run on them, and runs are measured."""
import os
import pathlib
import re
import shutil
import statistics
import subprocess
import tempfile

HERE = pathlib.Path(__file__).resolve().parent
PROGRAM = HERE.parent / "crates/ghost_cli/out/ghost_cli"
THREADS = (64, 1_024, 16_384, 65_536)
# The plain programs that run scripts, as bench/plain/build names them.
PLAIN = ("ghost", "kept")


def churn(kind, threads, rounds, *options):
    """The script that bench/churn writes; None if it would be too long."""
    command = [HERE / "churn", kind, "--threads", str(threads), "--rounds", str(rounds), *options]
    done = subprocess.run(command, stdout=subprocess.PIPE, stderr=subprocess.PIPE)
    if b"the most is" in done.stderr:
        return None
    done.check_returncode()
    return done.stdout


def run(command, script=b"", output=subprocess.DEVNULL):
    """Runs a command on a script, which it reads from a file."""
    with tempfile.TemporaryFile() as file:
        file.write(script)
        file.seek(0)
        return subprocess.run(command, check=True, stdin=file, stdout=output, stderr=subprocess.PIPE)


def instructions(command, script=b""):
    """How many instructions a command executes."""
    valgrind = ["valgrind", "--tool=callgrind", "--callgrind-out-file=/dev/null"]
    return int(re.search(rb"Collected : (\d+)", run([*valgrind, *command], script).stderr)[1])


def spent(command, script=b""):
    """What the system counts of a command that reads the script from a file: of that process alone, and not of what starts it."""
    with tempfile.TemporaryFile() as file, open(os.devnull, "wb") as nowhere:
        file.write(script)
        file.seek(0)
        opened = [(os.POSIX_SPAWN_DUP2, one.fileno(), at) for at, one in enumerate((file, nowhere))]
        child = os.posix_spawn(command[0], command, os.environ, file_actions=opened)
        _, status, usage = os.wait4(child, 0)
    if status:
        raise subprocess.CalledProcessError(os.waitstatus_to_exitcode(status), command)
    return usage


def time_of(usage):
    """The processor time, a program's own and the system's for it, in nanoseconds."""
    return (usage.ru_utime + usage.ru_stime) * 1e9


def nanoseconds(command, script=b""):
    """The processor time that a command takes."""
    return time_of(spent(command, script))


def most_memory(command, script=b""):
    """The most memory that a command has at once, in KiB. The system counts what starts a process too, so that is a small program."""
    return int(run([shutil.which("time"), "-f", "%M", *command], script).stderr.split()[-1])


def cell(costs, digits=0):
    """The median of the turns and, if there are several, its standard error."""
    middle = statistics.median(costs)
    if len(costs) == 1:
        return f"{middle:,.{digits}f}"
    low, _, high = statistics.quantiles(costs, n=4)
    # As the error of a median is if costs spread as on a bell curve with these quartiles.
    return f"{middle:,.{digits}f} ± {0.93 * (high - low) / len(costs) ** 0.5:,.{digits}f}"


def markdown(heads, rows):
    """The lines of a table whose first column alone is text."""
    yield "| " + " | ".join(heads) + " |"
    yield "|---|" + "---:|" * (len(heads) - 1)
    for row in rows:
        yield "| " + " | ".join(row) + " |"


def build(folder, names=PLAIN):
    """Builds these plain programs into a folder: their paths."""
    subprocess.run([HERE / "plain/build", folder, *names], check=True)
    return [pathlib.Path(folder) / name for name in names]


def add_program(parser):
    """The argument that names the proved program."""
    parser.add_argument("--program", type=pathlib.Path, default=PROGRAM, help="the proved program, else the one built here")


def found_program(parser, given):
    """The proved program, which has to be there."""
    if not os.access(given.program, os.X_OK):
        parser.error(f"{given.program} is not there; `rt run` in crates/ghost_cli builds it")
    return given.program.resolve()
