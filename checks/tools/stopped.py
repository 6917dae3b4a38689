"""What the files of a play hold where its writing has stopped."""


def is_front(whole, ran, order):
    """Whether the writing of the whole play has stopped somewhere: in this order of its files, and then in what is said."""
    texts = [*((ran.files.get(name), whole.files[name]) for name in order), (ran.said or None, whole.said)]
    has_stopped = False
    for found, text in texts:
        if has_stopped and found is not None or not text.startswith(found or b""):
            return False
        has_stopped = has_stopped or found != text
    return set(ran.files) <= set(order)
