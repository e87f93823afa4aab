"""Prints what runs of a command take: the least milliseconds by the clock, the KiB of memory of the last run at most, its exit status, and
the least milliseconds of the processor's time in the program itself, which other work on the machine changes less, and the mean milliseconds
by the clock.

    measure.py RUNS INPUT COMMAND..
"""
import os, subprocess, sys, time

runs, given, *command = sys.argv[1:]
best = least = float("inf")
whole = 0.0
for _ in range(int(runs)):
    begun = time.perf_counter()
    run = subprocess.Popen(command, stdin=open(given), stdout=subprocess.DEVNULL, stderr=subprocess.DEVNULL)
    _, status, usage = os.wait4(run.pid, 0)
    taken = time.perf_counter() - begun
    whole += taken
    best = min(best, taken)
    least = min(least, usage.ru_utime)
print(f"{best * 1000:.1f} {usage.ru_maxrss} {os.waitstatus_to_exitcode(status)} {least * 1000:.1f} {whole / int(runs) * 1000:.1f}")
