"""What the commands have in common that ask all nodes of a cluster: their options, how they say things, and how they
end."""
import argparse
import os
import signal
import sys
from pathlib import Path

from cluster_nodes import Access, BadArguments, Cluster, NoAnswer, address_of, addresses_in, settings_of, shown

MOST_AT_ONCE = 500  # a host takes 1,000 clients

OPTIONS = """
ADDRESS is HOST:PORT, where the host of a node listens to clients. Give those of all nodes that run.

--folder FOLDER       in place of addresses, the folder of a cluster that deploy/run has started
--file FILE           the cluster file, for what INFO does not tell (with --folder, that of the folder)
--password-file FILE  the file that the hosts have as --client-password
--at-once N           how many names are in work at a time (16)
--patience SECONDS    how long to wait for an answer (60)
"""


def prefix():
    """What stands in front of each line that the command says."""
    return f"deploy/{Path(sys.argv[0]).name}:"


def say(text):
    print(f"{prefix()} {text}", flush=True)


def say_unasked(cluster, survey, old=None):
    """Says which nodes did not answer, and returns what was not asked besides the old node."""
    for address, reason in cluster.silent.items():
        say(f"the node at {shown(address)} does not answer: {reason}")
    for number, reason in survey.failed.items():
        say(f"node {number} was not asked for all that it knows: {reason}")
    return cluster.unasked(old) + [f"node {number}" for number in survey.failed if number != old]


def names(count):
    return "1 name" if count == 1 else f"{count} names"


def printed(name):
    """A name as one word or line that a terminal can show."""
    text = name.decode(errors="backslashreplace")
    return text if text.isprintable() and text else repr(text)


def read_options(words, description, first):
    """The options in these words; `first` names the words that come before the addresses."""
    parser = argparse.ArgumentParser(prog=prefix()[:-1], description=description, epilog=OPTIONS,
                                     formatter_class=argparse.RawDescriptionHelpFormatter, allow_abbrev=False)
    for name in first:
        parser.add_argument(name, help=argparse.SUPPRESS)
    parser.add_argument("addresses", metavar="ADDRESS", nargs="*", help=argparse.SUPPRESS)
    for name in ("--folder", "--file", "--password-file"):
        parser.add_argument(name, help=argparse.SUPPRESS)
    parser.add_argument("--at-once", type=int, default=16, help=argparse.SUPPRESS)
    parser.add_argument("--patience", type=float, default=60, help=argparse.SUPPRESS)
    options = parser.parse_intermixed_args(words)
    if bool(options.addresses) == (options.folder is not None):
        raise BadArguments("give either addresses HOST:PORT or --folder")
    if not 1 <= options.at_once <= MOST_AT_ONCE:
        raise BadArguments(f"--at-once is a number from 1 to {MOST_AT_ONCE}")
    if not 0 < options.patience <= 86400:
        raise BadArguments("--patience is a number of seconds, above 0 and at most 86400")
    return options


def cluster_of(options):
    """The cluster that the options name."""
    if options.folder is None:
        addresses, file = [address_of(word) for word in options.addresses], options.file
    else:
        addresses, file = addresses_in(options.folder), options.file or Path(options.folder) / "cluster"
    password = None
    if options.password_file is not None:
        try:
            password = Path(options.password_file).read_bytes().partition(b"\n")[0]
        except OSError as fault:
            raise BadArguments(f"{options.password_file}: {fault.strerror}") from None
    return Cluster(addresses, settings_of(file) if file else {}, Access(password, options.patience))


def interrupt(*_):
    raise KeyboardInterrupt


def main(make_command, description, first):
    """Carries out the command that `make_command` makes of the options and their cluster. Ends the process at once,
    also while other threads wait for answers."""
    signal.signal(signal.SIGTERM, interrupt)
    command = None
    try:
        options = read_options(sys.argv[1:], description, first)
        cluster = cluster_of(options)
        command = make_command(options, cluster)
        if not cluster.nodes:
            raise NoAnswer("no node answers: " + "; ".join(f"{shown(address)}: {reason}" for address, reason
                                                           in cluster.silent.items()))
        status = command.go()
    except (BadArguments, NoAnswer) as fault:
        print(f"{prefix()} {fault}", file=sys.stderr)
        status = 2 if isinstance(fault, BadArguments) else 1
    except KeyboardInterrupt:
        status = command.interrupted() if command else 130
    sys.stdout.flush()
    os._exit(status)
