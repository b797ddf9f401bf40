# A program with its n-th request for memory refused, and no other one, on x86-64:
#
#     N=n IN=FILE OUT=FILE DIAG=FILE gdb -q -batch -x tests/refuse.py --args PROGRAM [WORD..]
#
# prints as its last line the status with which it ended, or signal, and whether it made so many requests: refused or none.
import gdb
import os

for setting in ("pagination off", "confirm off", "print thread-events off"):
    gdb.execute("set " + setting)
ended = []
gdb.events.exited.connect(lambda event: ended.append(getattr(event, "exit_code", "signal")))
streams = '<"$IN" >"$OUT" 2>"$DIAG"'
gdb.execute("break *main", to_string=True)
words = gdb.execute("show args", to_string=True).split('"', 1)[1].rsplit('"', 1)[0]
gdb.execute("run " + words + " " + streams, to_string=True)
gdb.execute("delete", to_string=True)
for call in ("malloc", "realloc"):
    gdb.execute("break *" + call, to_string=True)
left = int(os.environ["N"])
while not ended:
    gdb.execute("continue", to_string=True)
    if ended:
        break
    left -= 1
    if left == 0:
        # It returns at once, with no memory.
        gdb.execute("set $rax = 0")
        gdb.execute("set $rip = *(long*)$rsp")
        gdb.execute("set $rsp = $rsp + 8")
        gdb.execute("delete", to_string=True)
print(ended[0], "none" if left > 0 else "refused")
