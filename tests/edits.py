"""Traces with one thing changed."""


def other_number(draw, step):
    """The step with another of the numbers that it names."""
    places = [k for k in range(1, len(step)) if isinstance(step[k], int)]
    if not places:
        return step
    k = draw.choice(places)
    return step[:k] + (max(0, step[k] + draw.choice((-1, 1, 7))),) + step[k + 1:]


def other_answer(draw, step):
    """The Deliver with another answer of the disk: of a read mostly one byte is changed."""
    got = step[2]
    if got[0] == 'bytes' and draw.random() < 0.7:
        data = bytearray(got[1])
        data[draw.randrange(len(data))] ^= 1 << draw.randrange(8)
        return step[:2] + (('bytes', bytes(data)),)
    return step[:2] + (draw.choice((('done',), ('failed', 0), ('failed', 1), ('failed', 99), ('bytes', bytes(512)))),)


def edited(draw, trace):
    """The trace with one thing changed."""
    new, k = trace.copy(), draw.randrange(len(trace.steps))
    seat, step = new.steps[k]
    delivers = [j for j, (_, one) in enumerate(new.steps) if one[0] == 'deliver']
    what = draw.choice(('left out', 'doubled', 'moved', 'moved near', 'seat', 'number', 'answer', 'report', 'end'))
    if what == 'left out':
        del new.steps[k]
    elif what == 'doubled':
        new.steps.insert(k, new.steps[k])
    elif what.startswith('moved'):
        new.steps.insert(max(0, k + draw.randrange(-3, 4) if what == 'moved near' else draw.randrange(k + 1)),
                         new.steps.pop(k))
    elif what == 'seat':
        new.steps[k] = (seat + draw.randrange(1, 4), step)
    elif what == 'number':
        new.steps[k] = (seat, other_number(draw, step))
    elif what == 'answer' and delivers:
        k = draw.choice(delivers)
        new.steps[k] = (new.steps[k][0], other_answer(draw, new.steps[k][1]))
    elif what == 'report' and new.report:
        k = draw.randrange(len(new.report))
        new.report = new.report[:k] + draw.choice('0 x\n') + new.report[k + 1:]
    elif what == 'end':
        del new.steps[len(new.steps) - draw.randrange(1, min(4, len(new.steps)) + 1):]
    return what, new
