"""The wait of each phase and of each movement, written from their words in Python and independent of the proved code. Every wait is a number of
steps that a demand never waits: it is met in fewer."""
from retime import site_of, verdict_of


def leaving(site, p):
    """Early cut-off, yellow and all-red of a phase: from the end of running to the end of all-red."""
    return site.early[p] + site.phases[p]["Y"] + site.phases[p]["R"]


def greens(site, p):
    """Late start, minimum green and maximum green of a phase."""
    return sum(site.phases[p][name] for name in "LMX")


def walkers(site, p):
    """The movements of a phase."""
    return [k for k, phase in enumerate(site.phase_of) if phase == p]


def walk_over(site, k, begun, free):
    """The last step of the phase, if the walk of a movement began after so many steps and nothing else holds the phase after others: the walk
    lasts W steps, and at least one more than the phase is held; then C1; then the phase leaves, and C2 runs beside it."""
    p, walk = site.phase_of[k], site.walks[k]
    return max(begun + walk["W"], free + 1) + walk["C1"] + max(leaving(site, p), walk["C2"])


def over(site, p, free, begun, others):
    """The last step of a phase that nothing but the walks of these movements holds after so many steps."""
    return max([free + leaving(site, p)] + [walk_over(site, k, begun, free) for k in others])


def turn(site, p):
    """From the start of a phase to the next start, if another phase is demanded."""
    return over(site, p, greens(site, p), 0, walkers(site, p))


def other_turns(site, q):
    """One whole turn of each other phase."""
    return sum(turn(site, p) for p in site.after(q))


def first(site, q):
    """What may run before the first of these turns: start red, or what a phase has from the end of its green on. If that is the phase next after
    q, its turn is behind it."""
    clearing = [site.start]
    for r in [q] + site.after(q)[1:]:
        clearing += [leaving(site, r)] + [site.walks[k]["C2"] for k in walkers(site, r)]
    return max(clearing)


def own(site, m):
    """What the phase of a movement may still have before it is left: its whole turn, or the clearances of the movement, at the end of which the
    walk of another movement begins."""
    q, walk = site.phase_of[m], site.walks[m]
    others = [k for k in walkers(site, q) if k != m]
    clearances = walk["C1"] + walk["C2"]
    return max(over(site, q, greens(site, q), 0, others), over(site, q, clearances, clearances, others))


def phase_wait(site, q):
    return first(site, q) + other_turns(site, q) + site.phases[q]["L"]


def movement_wait(site, m):
    q = site.phase_of[m]
    return max(first(site, q), own(site, m)) + other_turns(site, q)


def all_waits(personality):
    """The waits of an accepted personality: those of the phases by letter, then those of the movements."""
    site = site_of(personality)
    return [phase_wait(site, q) for q in range(len(site.phases))] + [movement_wait(site, m) for m in range(len(site.walks))]


def waits(personality):
    """Number, the place or the number of bytes, and the bytes, for a buffer that is long enough."""
    found, place = verdict_of(personality)
    if found:
        return found, place, b""
    written = b"".join(wait.to_bytes(2, "little") for wait in all_waits(personality))
    return 0, len(written), written
