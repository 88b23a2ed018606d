"""Runs a program once: python3 -I -S once.py FILE PROGRAM [WORD ..]

What the program prints goes to the file. The line that is printed has its seconds of the processor, and the most memory that it
held, in pieces of 1024 bytes. Till it runs its program a process holds a copy of the one before it, and that counts too; so this
one is small, and is another one than that which makes the data.
"""
import os
import sys

words = sys.argv[2:]
child = os.fork()
if child == 0:
    try:
        os.dup2(os.open(sys.argv[1], os.O_WRONLY | os.O_CREAT | os.O_TRUNC), 1)
        os.execv(words[0], words)
    finally:
        os._exit(127)
_, status, used = os.wait4(child, 0)
print(used.ru_utime + used.ru_stime, used.ru_maxrss)
sys.exit(os.waitstatus_to_exitcode(status) & 255)
