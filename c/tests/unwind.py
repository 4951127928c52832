"""For gdb: steps through every instruction of a program, and unwinds from each outside of main. main has to be found, with its frame."""
import gdb

for setting in ("pagination off", "confirm off", "startup-with-shell off", "debuginfod enabled off"):
    gdb.execute(f"set {setting}")
gdb.execute("break main")
gdb.execute("run", to_string=True)
base = int(gdb.parse_and_eval("$rbp"))
steps = bad = 0
while True:
    gdb.execute("stepi", to_string=True)
    frame = top = gdb.newest_frame()
    if top.name() == "main":
        continue
    while frame is not None and frame.name() != "main":
        frame = frame.older()
    if frame is None or int(frame.read_register("rbp")) != base:
        # main has returned.
        if top.name() is None or top.name().startswith("__libc_start") or top.name() in ("exit", "_start"):
            break
        bad += 1
        print("lost:", hex(top.pc()), top.name())
    steps += 1
print(f"unwound from {steps} instructions, {bad} bad")
gdb.execute("kill")
