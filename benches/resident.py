"""The greatest resident memory of a program. What wait4 tells of it begins with the memory of the process that started it."""
import time


def peak_of(pid):
    """The greatest resident memory of a process up to now, in KiB, or 0 where it has ended."""
    try:
        with open(f"/proc/{pid}/status", encoding="ascii") as told:
            return next((int(line.split()[1]) for line in told if line.startswith("VmHWM:")), 0)
    except OSError:
        return 0


def watch(program):
    """Waits for the end of a program that was started, and returns its greatest resident memory in KiB, as read every hundredth of a
    second."""
    peak = 0
    while program.poll() is None:
        peak = max(peak, peak_of(program.pid))
        time.sleep(0.01)
    return peak
