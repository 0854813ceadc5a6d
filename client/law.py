"""What a reading needs to know of the law as docs/RULES.md has it: the ten rules with their limits, and the kinds of equipment."""
import datetime
import enum

FIRST_DAY_TO_ASK = datetime.date(2014, 7, 22)
LAST_DAY = datetime.date(2099, 12, 31)
# One tonne, in micrograms.
TONNE = 10**12


class Rule(enum.Enum):
    """A restriction of RoHS by its code."""

    LEAD = "lead"
    MERCURY = "mercury"
    CADMIUM = "cadmium"
    CHROMIUM_VI = "chromium-vi"
    PBB = "pbb"
    PBDE = "pbde"
    DEHP = "dehp"
    BBP = "bbp"
    DBP = "dbp"
    DIBP = "dibp"

    @property
    def limit(self):
        """The most that a homogeneous material may hold, in ppm by weight."""
        return 100 if self is Rule.CADMIUM else 1000


class Kind(enum.Enum):
    """A kind of equipment by its code."""

    LARGE_HOUSEHOLD = "1"
    SMALL_HOUSEHOLD = "2"
    IT = "3"
    CONSUMER = "4"
    LIGHTING = "5"
    TOOLS = "6"
    TOYS = "7"
    TOYS_OF_ENTRY_51 = "7t"
    MEDICAL = "8"
    IN_VITRO = "8i"
    MONITORING = "9"
    INDUSTRIAL_MONITORING = "9i"
    DISPENSERS = "10"
    OTHER = "11"

    @property
    def title(self):
        """What equipment it is, in words."""
        return _TITLES[self]


_TITLES = {
    Kind.LARGE_HOUSEHOLD: "large household appliances",
    Kind.SMALL_HOUSEHOLD: "small household appliances",
    Kind.IT: "IT and telecommunications",
    Kind.CONSUMER: "consumer equipment",
    Kind.LIGHTING: "lighting",
    Kind.TOOLS: "electrical and electronic tools",
    Kind.TOYS: "toys, leisure and sports equipment",
    Kind.TOYS_OF_ENTRY_51: "toys under entry 51 of REACH Annex XVII",
    Kind.MEDICAL: "medical devices",
    Kind.IN_VITRO: "in vitro diagnostic medical devices",
    Kind.MONITORING: "monitoring and control instruments",
    Kind.INDUSTRIAL_MONITORING: "industrial monitoring and control instruments",
    Kind.DISPENSERS: "automatic dispensers",
    Kind.OTHER: "other equipment",
}

# What suppliers write for a restricted substance in place of its code: its name, its symbol, its CAS number. In small letters.
SUBSTANCE_WORDS = {
    "pb": Rule.LEAD,
    "7439-92-1": Rule.LEAD,
    "hg": Rule.MERCURY,
    "7439-97-6": Rule.MERCURY,
    "cd": Rule.CADMIUM,
    "7440-43-9": Rule.CADMIUM,
    "cr vi": Rule.CHROMIUM_VI,
    "cr(vi)": Rule.CHROMIUM_VI,
    "cr6+": Rule.CHROMIUM_VI,
    "chromium vi": Rule.CHROMIUM_VI,
    "chromium (vi)": Rule.CHROMIUM_VI,
    "hexavalent chromium": Rule.CHROMIUM_VI,
    "18540-29-9": Rule.CHROMIUM_VI,
    "polybrominated biphenyls": Rule.PBB,
    "polybrominated diphenyl ethers": Rule.PBDE,
    "bis(2-ethylhexyl) phthalate": Rule.DEHP,
    "117-81-7": Rule.DEHP,
    "butyl benzyl phthalate": Rule.BBP,
    "85-68-7": Rule.BBP,
    "dibutyl phthalate": Rule.DBP,
    "84-74-2": Rule.DBP,
    "diisobutyl phthalate": Rule.DIBP,
    "84-69-5": Rule.DIBP,
} | {rule.value: rule for rule in Rule}
