"""Groups of questions, two at a time, each in a process and a folder of its own.

A group's memory and files are gone when it ends, so that it changes no other group's answers, nor
what is measured of a program's memory.
"""
import multiprocessing

from asking import Place

AT_ONCE = 2
LONGEST = 1200  # seconds of a group, which ends long before


def title_of(group):
    return group.__doc__.splitlines()[0].rstrip(".")


def ask_group(group, programs, part):
    """The number of comparisons of a group, its differences, and what it passed over."""
    place = Place(programs, part)
    try:
        group(place)
    except Exception as error:  # a group that cannot go on is a difference, and no more
        place.same(f"the group ends, got {type(error).__name__}: {error}", True, False)
    finally:
        place.remove()
    return place.count, place.differences, place.passed_over


def answer_of(asked):
    """What a group found, or that it does not end."""
    try:
        return asked.get(LONGEST)
    except multiprocessing.TimeoutError:
        return 1, [f"the group does not end within {LONGEST} seconds"], []


def run(groups, programs, part):
    """Asks all groups, prints what each found, and answers 0 where there was no difference.

    A group that passed over a part of its questions and found no difference counts as skipped.
    """
    failed = skipped = 0
    with multiprocessing.get_context("fork").Pool(AT_ONCE, maxtasksperchild=1) as pool:
        asked = [(group, pool.apply_async(ask_group, (group, programs, part))) for group in groups]
        for group, asking in asked:
            count, differences, passed_over = answer_of(asking)
            failed += bool(differences)
            skipped += bool(passed_over and not differences)
            print(f"{count:6} {title_of(group)}", flush=True)
            for difference in differences:
                print(f"       {difference}", flush=True)
            for why in passed_over:
                print(f"       passed over: {why}", flush=True)
    if skipped:
        print(f"{skipped} skipped: a part of their questions was passed over")
    print(f"{len(groups) - failed - skipped} passed, {failed} failed")
    return int(failed > 0)
