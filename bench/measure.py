"""What runs take: processor time and memory, and the times of messages."""
import os
import subprocess

MESSAGES = 1_000_000


def usage(command, line, told):
    """Processor seconds and the peak of resident memory, in MiB, of one run, which is given this line and has to tell this."""
    child = subprocess.Popen(command, stdin=subprocess.PIPE, stdout=subprocess.PIPE, text=True)
    child.stdin.write(line)
    child.stdin.close()
    text = child.stdout.read()
    _, status, used = os.wait4(child.pid, 0)
    child.returncode = os.waitstatus_to_exitcode(status)
    if child.returncode or told not in text.splitlines():
        raise SystemExit(f"{command[0]} ended with status {child.returncode} and wrote {text!r}")
    return used.ru_utime + used.ru_stime, used.ru_maxrss / 1024


def seconds(command, line, told, times):
    """The least processor time of so many runs."""
    return min(usage(command, line, told)[0] for _ in range(times))


def nanoseconds(asked, told, times, each=1):
    """The time of one message. For a number of messages `asked` answers the command and its line, and `told` stands behind what the program counts of
    it: the messages, or `each` for each of them."""
    with_them, without = (seconds(*asked(number), f"{number * each} {told}", times) for number in (MESSAGES, 0))
    return (with_them - without) / MESSAGES * 1e9
