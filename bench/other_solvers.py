"""Other solvers of blocking programs, and the rounds of docs/ANALYSIS.md by one of them: GLPK in floating point and QSopt_ex in exact fractions."""
import shutil
import subprocess
import time
from fractions import Fraction

from commands import TOP
from cizborg.blocking_programs import Shape, as_lp
from program_lines import as_line


def bounds_by(blocking, s, protocol):
    """The bounds that the rounds end with, or none where a value passes its deadline or has none. `blocking` is asked for the blocking
    of a task at some bounds."""
    bounds = list(s.cost)
    while True:
        values = []
        for i in range(s.n):
            blocked = blocking(i, bounds)
            if blocked is None:
                return None
            values.append(s.cost[i] + blocked + s.interference(protocol, bounds, i))
            if values[i] > s.latest[i]:
                return None
        if values == bounds:
            return bounds
        bounds = values


def line_of(costs, rows):
    """The line of a program whose rows are coefficients and a limit."""
    return as_line(costs, [(limit, row) for row, limit in rows])


def whole(value):
    """The whole ticks of a value in floating point."""
    return int(value + 1e-6)


class Alone:
    """One process that solves programs by GLPK, and says of each how long that alone took."""

    def __init__(self, folder):
        program = folder / "glpk_time"
        subprocess.run(["cc", "-O2", TOP / "bench" / "glpk_time.c", "-o", program, "-lglpk"], check=True, capture_output=True)
        self.process = subprocess.Popen([program], stdin=subprocess.PIPE, stdout=subprocess.PIPE, text=True)

    def solved(self, costs, rows):
        """The whole ticks of a program's optimum, or None where GLPK finds none, and the seconds that it took."""
        self.process.stdin.write(line_of(costs, rows) + "\n")
        self.process.stdin.flush()
        value, *rest = self.process.stdout.readline().split()
        return (None, 0.0) if value == "stopped" else (whole(float(value)), int(rest[0]) / 1e9)

    def end(self):
        self.process.stdin.close()
        self.process.wait()


def alone_in(folder):
    """GLPK in a process of its own, or None with a word where it can't be compiled."""
    try:
        return Alone(folder)
    except (OSError, subprocess.CalledProcessError):
        print("bench/glpk_time.c can't be compiled (cc and the package libglpk-dev): GLPK's solving alone is left out")
        return None


class Distinct:
    """The distinct programs of one analysis, each solved once by another solver."""

    def __init__(self, solver, s, protocol):
        self.solver = solver
        self.shapes = [Shape(s, protocol, i) for i in range(s.n)]
        self.answers = {}

    def blocking(self, i, bounds):
        """The blocking of a task at some bounds."""
        shape = self.shapes[i]
        if not shape.costs:
            return 0
        rows = [(row, limit) for (row, _), limit in zip(shape.rows, shape.limits(bounds))]
        line = line_of(shape.costs, rows)
        if line not in self.answers:
            self.answers[line] = self.solver.solved(shape.costs, rows)
        return self.answers[line][0]

    def seconds(self):
        """The seconds of all solutions."""
        return sum(took for _, took in self.answers.values())


class Exact:
    """`esolver` of the package qsopt-ex, a process for each program."""

    def __init__(self, folder):
        self.folder = folder

    def solved(self, costs, rows):
        """The whole ticks of a program's optimum, or None where it finds none, and the seconds of its process."""
        (self.folder / "program.lp").write_text(as_lp(costs, rows))
        solution = self.folder / "solution"
        solution.unlink(missing_ok=True)
        begun = time.perf_counter()
        # it takes the last word for the file of the program, so the options stand first
        subprocess.run(["esolver", "-O", "solution", "-L", "program.lp"], cwd=self.folder, stdin=subprocess.DEVNULL, capture_output=True)
        took = time.perf_counter() - begun
        lines = solution.read_text().splitlines() if solution.exists() else []
        value = next((line.partition("=")[2].strip() for line in lines if line.strip().startswith("Value")), None)
        return (None if value is None else int(Fraction(value))), took


def exact_in(folder):
    """QSopt_ex, or None with a word where it isn't installed."""
    if shutil.which("esolver"):
        return Exact(folder)
    print("esolver is missing (package qsopt-ex): QSopt_ex is left out")
    return None
