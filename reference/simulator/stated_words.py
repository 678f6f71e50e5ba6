"""Cases of the words that a deployment ends with: each word, by an audit of all, by one of some, and by windows."""
from .audit_lines import Life, write_words
from .stated_audits import CONFIG, OTHER_SET, r1, r2_with_a, r2_with_b, r3
from .stated_windows import at


def line(*lives):
    return write_words(CONFIG, [life.field() for life in lives])


def of_all():
    """None was told to prune: the audit's words, also where one made no step. Two are too few."""
    return [line(at(1, 7), at(2, 7), at(3, 7)), line(at(0, 7), at(1, 7), at(2, 3), Life(CONFIG, 3)),
            line(r1(), r2_with_a(), r3()), line(r1(), r3(), r2_with_b()), line(r2_with_b(), r3(), r1()),
            line(at(1, 7), at(2, 7))]


def of_some():
    """One of four was told to prune, and it agrees, stands on another branch, or shows too little; or the others fork."""
    others = [at(1, 7), at(2, 7), at(3, 6)]
    forked = [r1(), r3(), r2_with_b()]
    return [line(*others, at(0, 7, prune=5)), line(at(0, 7, prune=0), *others),
            line(*others, at(0, 7, (OTHER_SET,), prune=5)), line(at(0, 6, (OTHER_SET,), prune=2), *others),
            line(*others, at(0, 12, prune=12)), line(at(0, 12, prune=12), *others),
            line(*forked, at(0, 3, prune=2)), line(at(0, 3, prune=0), *forked)]


def of_windows():
    """Fewer than a quorum have all their past: what the windows of all show."""
    return [line(at(1, 7, prune=5), at(2, 7, prune=7), at(3, 7, prune=3)),
            line(at(1, 7, prune=5), at(2, 7), at(3, 7, prune=3), at(0, 7)),
            line(at(1, 7, prune=5), at(2, 7, (OTHER_SET,), prune=7), at(3, 7, prune=3)),
            line(at(1, 7, prune=7), at(2, 3), at(3, 3, prune=3)),
            line(at(1, 7, prune=5), at(2, 7, prune=5))]


def all_cases():
    return of_all() + of_some() + of_windows()
