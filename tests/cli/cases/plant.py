"""The plant of the examples, whole: its bounds under each protocol, and a million ticks of its 251 jobs."""
import re

from setting import TOP, Case

FILES = {"set": (TOP / "examples" / "plant.json").read_text(), "jobs": (TOP / "examples" / "plant-jobs.csv").read_text()}

# of each task: its name, and how many jobs it releases in a million ticks
TASKS = [("t1", 100), ("t2", 50), ("t3", 40), ("t4", 25), ("t5", 20), ("t6", 10), ("t7", 5), ("t8", 1)]

# of each protocol: the least bounds, and the values of the duals
PROVED = {
    "mpcp": ([1270, 3470, 4420, 6880, 9470, 18450, 38440, 109220], [270, 470, 420, 880, 470, 450, 440, 1220]),
    "fmlp+": ([1750, 3720, 4770, 6880, 10670, 18450, 38580, 108720], [750, 720, 770, 880, 670, 450, 580, 720]),
    "dpcp": ([1120, 3920, 4750, 6550, 9350, 18950, 39190, 110150], [120, 920, 750, 550, 350, 950, 1190, 2150]),
    "dflp": ([1200, 3920, 4900, 6550, 9350, 18950, 38830, 109700], [200, 920, 900, 550, 350, 950, 830, 1700]),
    "spin": ([1700, 3670, 4650, 6800, 10550, 18420, 38780, 109100], [700, 670, 650, 800, 550, 420, 780, 1100]),
    "fmlp+-c": ([1750, 3720, 4770, 6880, 10670, 18450, 38580, 108720], [750, 720, 770, 880, 670, 450, 580, 720]),
    "spin-c": ([1700, 3670, 4650, 6800, 10550, 18420, 38780, 109100], [700, 670, 650, 800, 550, 420, 780, 1100]),
    "mpcp-c": ([1270, 3470, 4420, 6880, 9470, 18450, 38130, 108720], [270, 470, 420, 880, 470, 450, 130, 720]),
    "dpcp-w": ([1120, 3920, 4750, 6550, 9350, 18950, 38830, 109700], [120, 920, 750, 550, 350, 950, 830, 1700]),
    "dpcp-c": ([1120, 3920, 4750, 6550, 9350, 18950, 38830, 109700], [120, 920, 750, 550, 350, 950, 830, 1700]),
    "dflp-c": ([1200, 3920, 4900, 6550, 9350, 18950, 38830, 109700], [200, 920, 900, 550, 350, 950, 830, 1700]),
}


def lines(first, of_task, protocol):
    """A pattern of the answer: its first line, and a line for each task from its name, jobs, bound and value."""
    bounds, values = PROVED[protocol]
    return re.compile(first + "".join(of_task(name, jobs, bound, value) for (name, jobs), bound, value in zip(TASKS, bounds, values)))


def analysed(protocol):
    bounds = ",".join(str(bound) for bound in PROVED[protocol][0])
    says = re.compile(r'\{"bounds":\[' + bounds + r'\],"duals":.*,"protocol":"' + re.escape(protocol) + r'",.*\}\n')
    return Case(f"the least bounds under {protocol}", f"analyse {protocol} set", says, 0, FILES)


def checked(protocol):
    return Case(f"its certificate under {protocol}", f"check {protocol} set cert", "valid\n", 0, FILES, before=((f"analyse {protocol} set", "cert"),))


def conforming(protocol):
    says = lines(r"lawful 1000000\n", lambda name, jobs, *_: rf"{name} {jobs} \d+ \d+\n", protocol)
    simulated = (f"simulate {protocol} set jobs 1000000", "rows")
    return Case(f"a million ticks under {protocol} are lawful", f"conform {protocol} set jobs rows", says, 0, FILES, before=(simulated,))


def audited(protocol):
    says = lines(r"kept 1000000\n", lambda name, _, bound, value: rf"{name} \d+ {bound} \d+ {value} \d+ \d+ \d+\n", protocol)
    earlier = ((f"analyse {protocol} set", "cert"), (f"simulate {protocol} set jobs 1000000", "rows"))
    return Case(f"a million ticks under {protocol} beside what is proved", f"audit {protocol} set cert jobs rows", says, 0, FILES, before=earlier)


CASES = [case(protocol) for protocol in PROVED for case in (analysed, checked, conforming, audited)]
