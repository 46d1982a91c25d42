"""The refusals: for each number its name and when it applies.

Printed by host/bindings/run.sh from crates/refusal.
"""

TABLE = {
    1: ("Stages", "CIC stages not 1 to 8"),
    2: ("Factor", "CIC factor not 1 to 4,096"),
    3: ("GainBits", "gain bits over 31"),
    4: ("Span", "span shorter than the factor"),
    5: ("FirFactor", "FIR factor not 1 to 4,096"),
    6: ("Taps", "FIR taps none or too many"),
    7: ("Samples", "samples none, or samples or span over 65,536"),
    8: ("TapsMultiple", "FIR taps not a multiple of the factor"),
    9: ("Ratio", "ratio not above zero or not finite"),
    10: ("HalfBandTaps", "half-band taps not 1 to 23"),
    11: ("Depth", "depth out of its limits"),
    12: ("Phases", "phases not 2 to 64, or their taps not 1 to 16"),
    13: ("Prototype", "prototype not phases times taps long"),
    14: ("Step", "step out of its limits"),
    15: ("State", "settings that the opening refuses, or a counter out of range"),
    16: ("Directory", "sheet with too many entries, or cut off inside its directory"),
    17: ("Entries", "entries unsorted, overlapping or outside the sheet's data"),
    18: ("EntryNumber", "entry number not below the count"),
    19: ("PhaseTaps", "linear-phase taps not 1 to 23"),
    20: ("Lengths", "source and span not of one length"),
    21: ("Parked",
        "another count of entries than a parked line has, or an entry of another length"),
    22: ("Plan", "lists of a plan not of one length, or past a limit"),
    23: ("PowerOfTwo", "factor not a power of two"),
}
