"""By which of the second house's rules its program is asked: the requests that have landed here, named in this one place."""
LANDED = ("w202", "w205")


def rules(oracle):
    return oracle.Rules(**dict.fromkeys(LANDED, True))


def unknown(q):
    """Has a question an unknown archive: a `?` on its sheet, or a record of two words 0?"""
    words = q.get("words", ())
    return "?" in q.get("text", "") or (0, 0) in zip(words[0::2], words[1::2])
