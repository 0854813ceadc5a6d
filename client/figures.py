"""Masses, shares and counts as a person reads them. What is shown is exact, or says that it is about so much."""
import fractions

from client.law import TONNE

_UNITS = ((TONNE, "t"), (10**9, "kg"), (10**6, "g"), (10**3, "mg"), (1, "ug"))


def decimal(number, places):
    """A number that has at most so many decimals, with those that it needs."""
    whole, rest = divmod(int(number * 10**places), 10**places)
    decimals = f"{rest:0{places}}".rstrip("0") if places else ""
    return f"{whole}.{decimals}" if decimals else str(whole)


def mass(micrograms):
    """A mass in the greatest unit of which there is one, exactly."""
    size, unit = next((pair for pair in _UNITS if micrograms >= pair[0]), _UNITS[-1])
    return f"{decimal(fractions.Fraction(micrograms, size), len(str(size)) - 1)} {unit}"


def rounded(number, places, near=None):
    """A number with at most so many decimals: exactly where it has no more, else about it, and never as `near`, from which it differs."""
    scaled = number * 10**places
    if scaled == int(scaled):
        return decimal(number, places)
    shown = fractions.Fraction(round(scaled), 10**places)
    if shown == near:
        return f"a little {'over' if number > near else 'under'} {decimal(shown, places)}"
    return f"about {decimal(shown, places)}"


def ppm_of_limit(finding):
    """The share of a finding against the limit of its rule, in ppm."""
    return f"{finding.rule.value} {rounded(finding.ppm, 3, finding.rule.limit)} ppm of at most {finding.rule.limit} ppm"


def percent(part, whole, near=None):
    """A part of a whole in percent."""
    return f"{rounded(fractions.Fraction(100 * part, whole), 4, near)} %"


def counted(number, word, plural=None):
    return f"{number} {word if number == 1 else plural or word + 's'}"
