"""bench/program.py RECORDS ROUNDS PLAIN NAME=PROGRAM..: programs that decode a capture beside a plain C program, in alternating rounds; the processor time
of each is the least of its rounds. All must write the same bytes. PLAIN also makes the capture."""

import resource
import subprocess
import sys

records, rounds, plain = int(sys.argv[1]), int(sys.argv[2]), sys.argv[3]
programs = {"plain C": plain, **dict(word.split("=", 1) for word in sys.argv[4:])}
capture = subprocess.run([plain, "make", str(records)], stdout=subprocess.PIPE, check=True).stdout


def timed(program):
    """What it writes, and its processor seconds."""
    before = resource.getrusage(resource.RUSAGE_CHILDREN)
    written = subprocess.run([program], input=capture, stdout=subprocess.PIPE, check=True).stdout
    after = resource.getrusage(resource.RUSAGE_CHILDREN)
    return written, after.ru_utime + after.ru_stime - before.ru_utime - before.ru_stime


least, wanted = {}, None
for _ in range(rounds):
    for name, program in programs.items():
        written, seconds = timed(program)
        wanted = written if wanted is None else wanted
        if written != wanted:
            sys.exit(f"{name} writes something else than plain C")
        least[name] = min(seconds, least.get(name, seconds))
print("| program, records of RM(2,5), noise 0.5 | records per second | of plain C's time |\n|---|---|---|")
for name, seconds in least.items():
    print(f"| {name} | {records / max(seconds, 1e-9):,.0f} | {seconds / max(least['plain C'], 1e-9):.2f} |")
