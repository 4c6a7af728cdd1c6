"""`python3 -m stress.gate_days.held_demo GATEWAY LISTENER`: `gateway demo`, with a stranger at its `market`, or `client`.

The demonstration is traced up to its third `listen`, that of its market, and stands still there: nobody has connected
yet. Then this program does. It takes the market's one link, so that the gateway's port gets no answer and no order is
filled; or the first client's, and announces too long a frame there. What the demonstration tells goes to standard
output and standard error, and its status is the answer."""
import ctypes
import os
import signal
import socket
import sys

TRACE_ME, PEEK_USER, SYSTEM_CALL, DETACH, SET_OPTIONS = 0, 3, 24, 17, 0x4200
# x86-64: the number of the system call among the registers, and that of `listen`
ORIG_RAX, LISTEN = 15 * 8, 50
# stops at system calls are told apart by 0x80, and nothing that is traced outlives this program
OPTIONS = 0x1 | 0x100000
# those of the first client, of the second and of the market, in this order
LISTENERS = 3
TOO_LONG = b"8=FIX.4.4\x019=8169\x01"
# the status where this machine lets nobody trace
NO_TRACE = 3

library = ctypes.CDLL(None, use_errno=True)
library.ptrace.restype = ctypes.c_long
library.ptrace.argtypes = [ctypes.c_long, ctypes.c_long, ctypes.c_void_p, ctypes.c_void_p]


def trace(request, process=0, address=0, value=0):
    """A request to trace a process; where that is refused this program ends."""
    ctypes.set_errno(0)
    answer = library.ptrace(request, process, address, value)
    if answer == -1 and ctypes.get_errno():
        print("ptrace:", os.strerror(ctypes.get_errno()), file=sys.stderr)
        os._exit(NO_TRACE)
    return answer


def traced(words):
    """A process of these words, which stands still at its begin."""
    process = os.fork()
    if process == 0:
        trace(TRACE_ME)
        os.execv(words[0], words)
    os.waitpid(process, 0)
    trace(SET_OPTIONS, process, 0, OPTIONS)
    return process


def goes_to_its_listeners(process):
    """Lets the process go on until so many calls of `listen` have come back."""
    left, is_entered = LISTENERS, False
    while left:
        trace(SYSTEM_CALL, process)
        _, status = os.waitpid(process, 0)
        if os.WIFEXITED(status):
            sys.exit("the demonstration has ended before")
        if os.WSTOPSIG(status) == signal.SIGTRAP | 0x80 and trace(PEEK_USER, process, ORIG_RAX) == LISTEN:
            left -= is_entered
            is_entered = not is_entered


def listens_at(process):
    """The addresses of the listeners of the process, in the order in which they were made."""
    descriptors = sorted(int(it) for it in os.listdir(f"/proc/{process}/fd"))
    of = {os.readlink(f"/proc/{process}/fd/{it}"): it for it in descriptors}
    with open(f"/proc/{process}/net/tcp", encoding="ascii") as file:
        rows = [line.split() for line in file.read().splitlines()[1:]]
    listening = [(of[f"socket:[{row[9]}]"], int(row[1].split(":")[1], 16)) for row in rows
                 if row[3] == "0A" and f"socket:[{row[9]}]" in of]
    return [address for _, address in sorted(listening)]


def main():
    program, listener = sys.argv[1:]
    process = traced([program, "demo"])
    goes_to_its_listeners(process)
    first, *_, market = listens_at(process)
    stranger = socket.create_connection(("127.0.0.1", market if listener == "market" else first))
    if listener == "client":
        stranger.sendall(TOO_LONG)
    trace(DETACH, process)
    _, status = os.waitpid(process, 0)
    stranger.close()
    return os.waitstatus_to_exitcode(status)


if __name__ == "__main__":
    sys.exit(main())
