"""The guard of the network. Chromium asks public servers by itself, so nothing runs where there is more than loopback."""


class NotAlone(Exception):
    """The network namespace has more than loopback, or its loopback is down."""


def interfaces(table):
    """The names of the interfaces that the text of /proc/net/dev lists."""
    return [line.split(":")[0].strip() for line in table.splitlines()[2:] if ":" in line]


def is_alone(table):
    """Whether loopback is the one interface of a text of /proc/net/dev."""
    return interfaces(table) == ["lo"]


def insist():
    """Raises NotAlone unless this process has loopback and no other interface."""
    with open("/proc/self/net/dev") as file:
        table = file.read()
    if not is_alone(table):
        raise NotAlone("the network namespace has " + (", ".join(interfaces(table)) or "no interface"))
