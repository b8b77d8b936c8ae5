"""What is played: the commands that make a cluster, and the steps whose memory is refused, each with what it prints.

The outputs were worked out by hand, from the rules; `None` stands for a line that no rule here speaks of.
"""
HELLO = "68656c6c6f"
FOUR = ["servers 4", "layout 2 0 1 2 3", "object a 0"]
FIVE = ["servers 5", "layout 2 0 1 2 3", "layout 3 0 1 2 3 4", "object a 0"]
ONE = ["servers 1", "layout 1 0", "object a 0"]
BEGUN = [("deliver a", "handled 8"), ("advance a 1", "ok"), ("deliver a", "handled 8"), ("supply a 1", "ok")]

STORIES = {
    "a repeated message": (FOUR, [
        (f"call write a {HELLO}", "call 1"), *BEGUN,
        ("account", "stored 0 mailed 12 0:0 1:0 2:0 3:0"), ("repeat a 0", "ok"),
        ("account", "stored 0 mailed 15 0:0 1:0 2:0 3:0"), ("deliver a", "handled 10"),
        ("account", "stored 12 mailed 0 0:3 1:3 2:3 3:3")]),
    "a move in the midst of a write": (FIVE, [
        (f"call write a {HELLO}", "call 1"), *BEGUN, ("deliver a", "handled 8"), ("advance a 1", "ok"),
        ("deliver a", "handled 8"), ("move a 1", "call 2 answered"), ("resume a 1", "call 1 answered"),
        ("account", "stored 22 mailed 0 0:5 1:5 2:5 3:5 4:2"), ("read a", f"call 3 value {HELLO}"),
        ("sequence a", "1 3")]),
    # The late pieces of the retired position are dropped as they come.
    "a retired position": (FIVE, [
        (f"call write a {HELLO}", "call 1"), *BEGUN, ("serve a 0", "ok"), ("move a 1", "call 2 answered"),
        ("account", "stored 3 mailed 9 0:3 1:0 2:0 3:0 4:0"), ("retire a 0", "freed 3"), ("retire a 1", "refused 7 NotNow"),
        ("serve a 1", "ok"), ("bank a 0 1", "next final; 0.0 fin -; 1.1 pre -"),
        ("account", "stored 0 mailed 6 0:0 1:0 2:0 3:0 4:0"), ("resume a 1", "call 1 answered"),
        ("account", "stored 10 mailed 0 0:2 1:2 2:2 3:2 4:2"), ("read a", f"call 3 value {HELLO}"), ("sequence a", "1 3")]),
    # A read that two newer writes overtake is refused, and the next resume begins it anew.
    "an object that collects": ([*FOUR[:2], "object a 0 0"], [
        (f"write a {HELLO}", "call 1 answered"), ("call read a", "call 2"), ("deliver a", "handled 10"),
        ("advance a 2", "ok"), ("deliver a", "handled 8"), ("advance a 2", "ok"), ("write a 41", "call 3 answered"),
        ("write a 42", "call 4 answered"), ("resume a 2", "call 2 refused 16 Collected"),
        ("account", "stored 4 mailed 0 0:1 1:1 2:1 3:1"), ("resume a 2", "call 2 value 42"), ("sequence a", "1 3 4 2")]),
    "a beginning": (["servers 5"], [
        ("layout 2 0 1 2 3", "layout 0"), ("layout 3 0 1 2 3 4", "layout 1"), ("object b 1", "ok"), ("object a 0 2", "ok"),
        ("write a 41", "call 1 answered"), ("account", "stored 4 mailed 0 0:1 1:1 2:1 3:1 4:0")]),
    "two moves": (FOUR, [
        ("call write a 41", "call 1"), *BEGUN, ("move a 0", "call 2 answered"), ("move a 0", "call 3 answered"),
        ("bank a 2 0", "next none; 0.0 fin 0"), ("serve a 0", "ok"), ("bank a 2 0", "next none; 0.0 fin 0"),
        ("bank a 0 0", "next final; 0.0 fin 0; 1.1 pre 1")]),
    "one member": (ONE, [
        ("write a 41", "call 1 answered"), ("read a", "call 2 value 41"),
        ("history a", "1 write 3 18 41\n2 read 19 32 41"), ("post a 2", "refused 7 NotNow")]),
    "turns that are used up": ([*ONE, "write a 41 14"], [
        ("resume a 1", "call 1 answered"), ("read a", "call 2 value 41"), ("sequence a", "1 2")]),
    # Each of the three writes leaves one request of its last phase behind, which the first delivery serves and takes.
    "a read by hand, where banks grow": ([*FOUR, "write a 41", "write a 42", "write a 43"], [
        (f"call write a {HELLO}", "call 4"), ("deliver a", "handled 14"), ("advance a 4", "ok"), ("deliver a", "handled 8"),
        ("supply a 4", "ok"), ("deliver a", "handled 8"), ("advance a 4", "ok"), ("deliver a", "handled 8"),
        ("call read a", "call 5"), ("deliver a", "handled 8"), ("advance a 5", "ok"), ("deliver a", "handled 8"),
        ("advance a 5", "ok"), ("deliver a", "handled 8"), ("settle a 5", "ok"), ("advance a 5", "ok"),
        ("deliver a", "handled 8"), ("answer a 5", f"call 5 value {HELLO}"), ("resume a 4", "call 4 answered"),
        ("sequence a", "1 2 3 4 5")]),
}

# The commands that ask for no memory, once their line is read.
SPARING = ("account", "show", "mail", "bank", "check", "lose", "take", "retire", "post a 2")

# Command lines, with the line that each prints.
LINES = {
    ("fragments", "2", "4", HELLO): "0:68656c 1:040a6c 2:b0bb6c 3:dcd46c\n",
    ("decode", "2", "5", "3:dcd46c", "2:b0bb6c"): f"{HELLO}\n",
    ("soak", "1", "4", "0", "7"): "calls 4\nreceipts 4\nmoves 0\ncheck true\naccounts true\n",
}

# The pieces that `trials` has its value coded into, of which any two give it back.
POOL_JOBS = 4
