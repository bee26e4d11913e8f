"""Instructions that are left out, respelled or refused, each alone."""

from ..site import Site
from ..stack_types import takes_addresses
from ..tree import Instruction
from ..types import OBJECT, STRING, VOID, core

_REMEDIES = {
    "throw": "return a value that reports the failure: a fault ends its thread",
    "rethrow": "return a value that reports the failure: a fault ends its thread",
    "ldc.r4": "compute with `int` or `long`, and scale",
    "ldc.r8": "compute with `int` or `long`, and scale",
    "sizeof": "write the number",
    "localloc": "write `new`, not `stackalloc`",
}
_MONITOR = core("System.Threading.Monitor")


def prefix(site: Site) -> list[Instruction]:
    """Leaves out `volatile.` and other prefixes: each access of the machine is in order (III.2.6)."""
    site.count(f"`{site.part.op}`")
    return []


def leave(site: Site) -> list[Instruction]:
    """`leave` empties the stack and branches (III.3.47)."""
    return [*site.makes(*["pop"] * len(site.stack)), site.make("br", site.operand)]


def empty_string(site: Site) -> list[Instruction] | None:
    """`string.Empty` is a literal."""
    if site.operand.owner != STRING:
        return None
    site.count("`string.Empty`")
    return site.makes(("ldstr", '""'))


def string(site: Site) -> list[Instruction]:
    """Refuses characters that the profile's literals don't have."""
    text = site.operand[1:-1]
    plain = text.replace("\\\\", "").replace('\\"', "").replace("\\n", "").replace("\\t", "")
    if "\\" in plain or not all(" " <= character <= "~" for character in plain):
        return site.refuse(f"the string {site.operand}", "write ASCII characters, `\\n` and `\\t` alone")
    return [site.part]


def enter(site: Site) -> list[Instruction] | None:
    """`Monitor.Enter(object, ref bool)` sets its flag after `Enter(object)`: what `lock` is compiled to."""
    if not takes_addresses(site.operand):
        return None
    made = [site.call(_MONITOR, "Enter", VOID, OBJECT)]
    address = site.top()
    if getattr(address, "kind", "") not in ("local", "argument"):
        return site.refuse("`Monitor.Enter` with a flag that is no local", "write `lock`")
    return made + site.makes(("ldc.i4", 1), ("stloc" if address.kind == "local" else "starg", address.detail))


def refuse(site: Site) -> list[Instruction]:
    """Refuses an instruction that has no counterpart."""
    return site.refuse(f"`{site.part.op}`", _REMEDIES.get(site.part.op, "write it in safe C#, without pointers"))


def no_operation(site: Site) -> list[Instruction]:
    return []


RULES = {name: prefix for name in ("volatile.", "tail.", "readonly.", "unaligned.", "constrained.")}
RULES |= {name: refuse for name in "throw rethrow ldc.r4 ldc.r8 sizeof localloc jmp ckfinite arglist cpblk initblk cpobj".split()}
RULES |= {"leave": leave, "ldsfld": empty_string, "ldstr": string, "call": enter, "break": no_operation}
