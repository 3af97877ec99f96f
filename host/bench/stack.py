"""Bytes of stack that each exported function needs at most, read from the archive's machine code.

A function's frame is every `push` and every `sub` of the stack pointer in it, and its return address; the need is
the largest sum over a chain of calls. Pushes of arguments are counted as if all stood at once. A large frame is taken
step by step in a loop, up to where %r11 points. A function that can come to call itself has no such sum: a cycle of calls
is an error, but for one that calls itself with a name less each time. So is a function that needs more than its limit.
"""
import collections
import functools
import re
import subprocess
import sys

ARCHIVE = sys.argv[1] if len(sys.argv) > 1 else "target/staticlib/libxhci_device.a"

# How often each of these is under way at most: for eight names, seven, and so on to none.
DEPTH = {"choice_search::pick_from": 9}

# What each exported function may need: no change makes it more, and one that needs less lowers it.
LIMITS = {
    "xhci_device_commit": 17024,
    "xhci_device_claim": 16768,
    "xhci_device_release": 15680,
    "xhci_device_set_configuration": 14912,
    "xhci_device_disconnect": 14464,
    "xhci_device_hub_update": 12928,
    "xhci_device_choose": 12160,
    "xhci_device_ask": 10880,
    "xhci_device_bring_up": 10752,
    "xhci_device_why": 10752,
    "xhci_device_is_sound": 9920,
    "xhci_device_is_up": 7040,
    "xhci_device_is_usable": 7040,
    "xhci_device_submit": 576,
    "xhci_device_turn": 576,
    "xhci_device_new_dispatcher": 64,
    "xhci_device_command_of": 64,
    "xhci_device_record_words": 64,
    "xhci_device_read_descriptors": 3776,
    "xhci_device_write_descriptors": 2688,
    "xhci_device_settings_to_old": 2560,
    "xhci_device_settings_to_new": 2496,
    "xhci_device_block": 64,
}

frame = collections.Counter()
calls = collections.defaultdict(set)


def read(text):
    name = near = None
    in_steps = False
    for line in text.splitlines():
        if found := re.search(r"R_X86_64_PLT32\s+(?:\.text\.)?(\S.*?)(?:[-+]0x[0-9a-f]+)?$", line):
            calls[name].add(found[1])
            near = None
            continue
        # A call within a section has no relocation, as that of a function by itself; a jump there is one of its own loops.
        if near:
            calls[name].add(near)
            near = None
        if found := re.match(r"^[0-9a-f]+ <(.*)>:$", line):
            name = found[1]
            frame[name] += 8
        elif found := re.search(r"\bsub\s+\$0x([0-9a-f]+),%r11$", line):
            frame[name] += int(found[1], 16)
            in_steps = True
        elif found := re.search(r"\bsub\s+\$0x([0-9a-f]+),%rsp", line):
            frame[name] += 0 if in_steps else int(found[1], 16)
        elif in_steps and re.search(r"\bcmp\s+%r11,%rsp$", line):
            in_steps = False
        elif re.search(r"\tpush", line):
            frame[name] += 8
        elif found := re.search(r"\t(call|j\w+)\s+[0-9a-f]+ <(.*?)(?:\+0x[0-9a-f]+)?>", line):
            near = found[2] if found[1] == "call" or found[2] != name else None
        elif re.search(r"\bcall\s+\*|,%rsp$", line) and not re.search(r"\badd\s+\$0x|\bmov\s+%rbp", line):
            sys.exit(f"{name}: cannot be read: {line.strip()}")


def once(name):
    """Lays all that can be under way of a function that calls itself into one frame."""
    if name in calls[name]:
        calls[name].remove(name)
        frame[name] *= DEPTH[name]


def refuse_cycle(name, way=()):
    if name in way:
        sys.exit("a cycle of calls: " + " calls ".join(way[way.index(name):] + (name,)))
    for called in sorted(calls[name]):
        refuse_cycle(called, way + (name,))


@functools.cache
def need(name):
    return (frame[name] or 8) + max(map(need, calls[name]), default=0)


read(subprocess.run(["objdump", "-dr", "--no-show-raw-insn", ARCHIVE], capture_output=True, text=True, check=True).stdout)
for name in DEPTH:
    once(name)
for name in sorted(frame):
    refuse_cycle(name)
exported = sorted((n for n in frame if n.startswith("xhci_device_")), key=need, reverse=True)
for name in exported:
    print(f"{need(name):6}  {name}")
over = [f"{name}: {need(name)} bytes, its limit is {LIMITS.get(name, 0)}" for name in exported if need(name) > LIMITS.get(name, 0)]
if over:
    sys.exit("\n".join(over))
