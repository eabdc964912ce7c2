"""The line of a refusal, by its rule. Tests name a rule as the scripts' one table does, and its printed name is that of
the table; tests/test_tables.py compares it with the definition of what the programs print."""
from __future__ import annotations

import repository  # noqa: F401
from tftp_tools.rules import RULES, Rule

__all__ = ["RULES", "Rule", "refusal"]


def refusal(datagram: int, rule: Rule, fault: str = "") -> str:
    """The line that refuses this datagram by a rule, with the packet's fault for rule 5."""
    return f"refused datagram {datagram} rule {rule}{fault and f' {fault}'}"
