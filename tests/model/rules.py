"""The rules with their status words: STATUS.md, "Status words" and "The rules"."""

FINE, NOTHING_CHANGED = b"\x90\x00", b"\x62\x00"
CARD_IS_LOCKED, MORE_DATA = b"\x62\x83", b"\x63\x10"

_RULES_OF = {
    0x6300: "EA2",
    0x6700: "G1",
    0x6881: "G3",
    0x6982: "G6 G7 G8 EA3 II1 II3 II6 MS1 MS3 EX1 EX4 EX7 IL1 IL5 LO7 DO3 SC2 SS3 TK2 TK3",
    0x6985: "G5 M1 M2 M3 IU1 IU3 EA1 DK2 MS4 EX3 EX5 EX6 IL2 LO1 LO8 DO2 DO4 SC1 SS2 SS4 GS1 RC1",
    0x6A80: "S PK2 PK3 II4 II5 MS5 IL3 IL6 LO3 LO5 LO6 TK1",
    0x6A81: "MC1",
    0x6A82: "SE1",
    0x6A84: "PK4 SD1 II7 IL7 LO4",
    0x6A86: "P LO2",
    0x6A88: "GD1 IU2 PK1 DK1 II2 MS2 EX2 IL4 DO1 SS1 GS2",
    0x6D00: "G4",
    0x6E00: "G2",
}
STATUS_OF = {rule: word.to_bytes(2, "big") for word, rules in _RULES_OF.items() for rule in rules.split()}


class Refused(Exception):
    """A rule has failed: the first one, since no later one is looked at."""

    def __init__(self, rule: str):
        self.rule = rule
        self.status = STATUS_OF[rule]
