"""Files that a stranger may hand in, of about so many bytes each, with which bench/hostile.sh measures what they cost.

usage: hostile.py KIND SIZE FOLDER; KIND is one of the functions below, which writes its files and tells the command's words.
"""
import struct
import sys

TASK = '[[task]]\nname="{}"\nsource="s.s"\npriority={}\nflash={}\nram=256\nstack=64\nnotifications=[{}]\nuses=[{}]\n'


def put(name, contents):
    with open(f"{folder}/{name}", "wb") as f:
        f.write(contents if isinstance(contents, bytes) else contents.encode())


def repeated(form, room):
    """As many of the form's texts for 0, 1, 2 .. as have room."""
    texts = []
    while room > 0:
        text = form(len(texts))
        room -= len(text)
        if room >= 0:
            texts.append(text)
    return texts


def application(rest, notifications="", uses="", flash=1048576):
    head = f'[board]\nflash={flash}\nram=262144\n[supervisor]\nfault="fault"\n'
    put("app.toml", head + TASK.format("sup", 0, flash, '"fault"' + notifications, uses) + rest)
    put("s.s", "here: b here\n")
    return "build app.toml out.img"


def regions(size):
    """Regions, which are refused as the board has no room for so many."""
    return application("".join(repeated(lambda k: f'[[region]]\nname="r{k}"\nsize=1\n', size - 500)))


def devices(size):
    """Devices side by side, all taken: each is a symbol of the source."""
    form = '[[device]]\nname="d{}"\nbase={}\nsize=256\n'
    return application("".join(repeated(lambda k: form.format(k, 0x40000000 + 256 * k), size - 500)))


def notifications(size):
    """Notifications of one task, of which it may have 32."""
    return application("", "".join(repeated(lambda k: f',"n{k}"', size - 500)))


def uses(size):
    """Regions, and a task that uses them all, where 6 are the most."""
    count = len(repeated(lambda k: f'[[region]]\nname="r{k}"\nsize=1\n"r{k}",', size - 500))
    rest = "".join(f'[[region]]\nname="r{k}"\nsize=1\n' for k in range(count))
    return application(rest, uses=",".join(f'"r{k}"' for k in range(count)))


def interrupts(size):
    """Interrupts of the last notification of the one task, where 64 are the most."""
    bits = repeated(lambda k: f',"n{k}"', size // 2)
    form = f'[[interrupt]]\nline=1\ntask="sup"\nnotification="n{len(bits) - 1}"\n'
    return application("".join(repeated(lambda k: form, size // 2 - 500)), "".join(bits))


def tasks(size):
    """Tasks, and an interrupt of each, where 512 are the most."""
    form = TASK + '[[interrupt]]\nline=1\ntask="{}"\nnotification="n"\n'
    return application("".join(repeated(lambda k: form.format(f"t{k}", 1, 256, '"n"', "", f"t{k}"), size - 500)))


def shared(size):
    """512 tasks of 32 notifications each, at the largest size: each source may name all of them."""
    notes = ",".join(f'"n{k}"' for k in range(32))
    tasks = "".join(TASK.format(f"t{k}", min(k, 1), 256, notes, "") for k in range(max(1, 512 * size // 2097152)))
    put("app.toml", '[board]\nflash=1048576\nram=262144\n[supervisor]\nfault="n0"\n' + tasks)
    put("s.s", "here: b here\n")
    return "build app.toml out.img"


def keys(size):
    """Keys that there are not."""
    put("app.toml", "".join(repeated(lambda k: f"k{k}=1\n", size)))
    return "build app.toml out.img"


def labels(size):
    """Labels that name each other, the first the last."""
    application("")
    lines = repeated(lambda k: f"l{k}: .word l{k + 1}\n", size - 20)
    put("s.s", "".join(lines) + f"l{len(lines)}: .word l0\n")
    return "build app.toml out.img"


def image(size):
    """Tasks of eight regions each, all different in the first 128: 4,096 regions at the largest size, where the flash is large too."""
    count = 512 * size // 2097152
    head = struct.pack("<4sHHHHIIII", b"HBI2", count, 0, 8 * count, 0, size // 2, 262144, 1, 0)
    records = b"".join(struct.pack("<BBBBII", min(t, 1), 1, 8, 0, 0x08000001 + 256 * t, 0x20000100) for t in range(count))
    areas = b""
    for t in range(count):
        areas += struct.pack("<III", 0x08000000 + 256 * t, 256, 5)
        areas += b"".join(struct.pack("<III", 0x20000000 + 256 * (7 * (t % 128) + k), 256, 3) for k in range(7))
    put("a.img", head + records + areas + b"\xfe\xe7" * (size // 4))
    put("e.txt", "")
    return "run a.img e.txt --steps 20000"


def idle_image():
    put("a.img", struct.pack("<4sBBHIII", b"HBI1", 1, 0, 1, 256, 0, 1) + struct.pack("<BBBBII", 0, 1, 1, 0, 0x08000001, 0)
        + struct.pack("<III", 0x08000000, 256, 5) + b"\xfe\xe7" * 128)


def script(size):
    """An event a turn, 65,536 at the largest size, and as many turns."""
    count = size // 32
    idle_image()
    put("e.txt", "".join(f"at {k} tick\n" for k in range(count)))
    return f"run a.img e.txt --steps {count}"


def repeats(size):
    """Lines of two events each, 32,768 at the largest size: the first of each stands in front of the second ones of all before."""
    count = size // 64
    idle_image()
    put("e.txt", "".join(f"from {k} every {count} to {k + count} tick\n" for k in range(count)))
    return "run a.img e.txt --steps 0"


kind, size, folder = sys.argv[1], int(sys.argv[2]), sys.argv[3]
print({f.__name__: f for f in (regions, devices, notifications, uses, interrupts, tasks, shared, keys, labels, image, script, repeats)}[kind](size))
