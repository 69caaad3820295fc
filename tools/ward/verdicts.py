"""What each verdict means, in a technician's words. Document 01 has the numbers, docs/RULES.md those that came later."""

DONE, LINK_LIMIT, LINE_LIMIT, FULL, SHORT, PLACES, NOBODY, ROOM = 0, 4, 6, 7, 8, 9, 10, 12

WORDS = {
    0: "done",
    1: "the hub's state is not sound",
    2: "no link of this sort is set",
    3: "a link is set already",
    4: "a figure of the link is outside its limits",
    5: "the link has no such level",
    6: "a figure of the line is outside its limits",
    7: "200 lines stand already",
    8: "there is no room for what it may send",
    9: "more than 2,048 places would be reserved",
    10: "nobody of this sort stands under this number",
    11: "its length is 0 or longer than allowed",
    12: "it holds as many packets as places are reserved for it",
    13: "the clock has ended",
    14: "the record is damaged",
    15: "64 notices wait already",
    16: "it still holds packets",
    17: "its stamp is too late, too old, or too close behind the one before",
    18: "it would be eligible too far ahead of the clock",
    19: "it has used up its units of this frame",
}


def words(verdict):
    """The meaning of a verdict; a log that nobody wrote by the rules may have any number."""
    return WORDS.get(verdict, "no verdict has this number")


def refusal(answer):
    """Why an admission was refused, with what the answer tells of the level that was short; level 0 is a line with frames, which has none."""
    if answer.verdict != SHORT:
        return f"{words(answer.verdict)} (verdict {answer.verdict})"
    where = f"level {answer.level}" if answer.level else "the frame"
    return f"{where} is over by {answer.units} units (verdict {SHORT})"
