"""The waves of the policy, by plain loops and lists, written from crates/policy/README.md. A leg is its moves, the temperatures at its
beginning and at its end, in thousandths of the unit, and its steps. One that rises heats, and ends early once its chain has a feasible
version.

A wave is what it begins at, how many of its chains go on, the legs of each bout, and the weights of a breach. Whoever takes a wave's legs
sends what each bout came to: None if its chain has no feasible version, for a leg that heats the highest temperature, otherwise
anything."""

RIGID, LOOSE, FULL, REPAIR, WIDE, PARTIAL = range(1, 7)
KINDS = {
    RIGID: ("homes", "teams"),
    LOOSE: ("homes", "rounds", "teams"),
    FULL: ("homes", "rounds", "teams", "part-rounds", "part-teams"),
    REPAIR: ("homes", "part-rounds", "part-teams"),
    WIDE: ("homes", "rounds", "part-rounds", "part-teams"),
    PARTIAL: ("homes", "part-rounds", "part-rounds", "part-teams", "part-teams"),
}
# what a breach of a hard limit weighs at first, at least and at most, in millionths of the unit, and at least one of a hard rule, if that
# is apart: without tries and in the lowest, in those of a repair, and in wide ones
WEIGHTS, NEAR = (2_000_000, 300_000, 100_000_000, None), (10_000_000, 300_000, 25_000_000, None)
WIDELY = (10_000_000, 300_000, 100_000_000, None)
# where rules' breaches weigh apart: in the first half, and after it
RULED_FIRST, RULED = (2_000_000, 300_000, 10_000_000, 8_000_000), (2_000_000, 300_000, 10_000_000, 20_000_000)


def parts(total, count):
    """As equal as whole numbers allow, the larger ones first."""
    return [total // count + (i < total % count) for i in range(count)]


def chain(kind, steps, hot):
    if kind == RIGID:
        return [(RIGID, hot, 500, steps - 3 * steps // 10), (LOOSE, 600, 300, 3 * steps // 10)]
    return [(LOOSE, 1500, 300, steps)] if kind == LOOSE else [(FULL, 600, 150, steps)]


def first_half(n, effort, apart=False):
    """The kind and the steps of each chain."""
    u = 1000 * n * n
    r, c = min(8 * u, 3_000_000), min(16 * u, 6_000_000)
    early = max(1, min(effort // 16, r))
    rest = max(0, effort // 2 - early)
    least = (2 if n <= 12 else 5) * u
    m = max(1, -(-rest // (r + 2 * c)))
    if n > 12 and m == 1 and rest * c // (2 * (r + 2 * c)) >= least:
        m = 2
    each = rest * c // (m * (r + 2 * c))
    if apart:
        m = min(4, max(1, rest // (2 * u)))
        groups = m * [[(RIGID, rest // m)]]
    elif each >= least:
        rigid, loose = [(RIGID, rest // m - 2 * each)], [(LOOSE, each), (FULL if n <= 12 else LOOSE, each)]
        groups = [loose + rigid if i % 2 else rigid + loose for i in range(m)]
    else:
        m = max(1, -(-rest // r))
        groups = m * [[(RIGID, rest // m)]]
    return [(RIGID, early)] + sum(groups, [])


def heats(leg):
    return leg[1] < leg[2]


def hottest(leg, steps):
    """The highest temperature of a leg that heats, after so many steps."""
    _, low, high, share = leg
    return low + min((high - low) * 2 * 1000 * ((steps - 1) // 1000) // share, high - low)


def cooled(leg, steps, source):
    """The legs that follow on one that heats, after so many steps: on one of a copy they end where cycles end."""
    kinds, _, _, share = leg
    cold = 150 if source == "Copies" else 100
    return [(kinds, max(hottest(leg, steps), cold), cold, share - steps)] if steps < share else []


def search(n, effort, goes_on=False, breaks_rules=False):
    apart = breaks_rules and n > 12
    chains = first_half(n, effort, apart)
    left = effort - sum(steps for _, steps in chains)
    field = min(4, max(1, left // (5000 * n * n)), len(chains))
    bouts = [chain(kind, steps, 3000 if apart else 2000) for kind, steps in chains]
    if goes_on:
        bouts[0] = [(FULL, 300, 150, chains[0][1])]
    came_to = yield "Start", field, bouts, RULED_FIRST if apart else WEIGHTS
    was_feasible, weights = any(end is not None for end in came_to), RULED if apart else WEIGHTS
    if not apart and not was_feasible:
        yield from search_tries(n, left)
        return
    levels, moves = {1: 0, 2: 1, 3: 2, 4: 2}[field], PARTIAL if apart else FULL
    level, peaks = left // (levels + 2), 8 * ((500, 400, 600, 300) if n <= 12 or apart else (300, 250, 400, 200))
    while field > 1:
        bouts = [[(moves, peak, 150, steps) for peak, steps in zip(peaks, parts(share, 2))] for share in parts(level, field)]
        peaks, left, field = peaks[2:], left - level, (field + 1) // 2
        came_to = yield "Own", field, bouts, weights
        was_feasible = was_feasible or any(end is not None for end in came_to)
    most = 1000
    for i, peak in enumerate(peaks[:16]):
        if left > 0:
            steps = max(1, left // (16 - i))
            left -= steps
            seeks = apart and not was_feasible
            bouts = [[(moves, 300, 2000, share)] for share in parts(steps, 4)] if seeks else copied(moves, most * peak // 1000, 150, steps)
            came_to = yield "Copies", 1, bouts, weights
            was_feasible = was_feasible or any(end is not None for end in came_to)
            if seeks:
                most = min([most, *(hot for hot in came_to if hot is not None)])


def search_tries(n, left):
    low = [(FULL, 300, 800, WEIGHTS)] if left // 2 >= 4000 * n * n else []
    return tries(left, [*low, (FULL, 1000, 5000, NEAR), (FULL, 1000, 20000, WIDELY)])


def copied(kinds, peak, cold, steps):
    """The bouts of four copies with one cycle."""
    return [[(kinds, max(peak, cold), cold, share)] for share in parts(steps, 4)]


def copies(left, kinds, peaks, cold, weights):
    for i, peak in enumerate(peaks):
        if left > 0:
            steps = max(1, left // (len(peaks) - i))
            left -= steps
            yield "Copies", 1, copied(kinds, peak, cold, steps), weights


def tries(left, reaches):
    """Tries to become feasible, with wider reaches while none does, and what follows on them."""
    for kinds, least, most, weights in reaches:
        if left == 0:
            return
        count = max(4, left // 1_250_000)
        steps = max(1, left // 2 if count == 4 else 3 * left // 4)
        left -= steps
        came_to = yield "Start", 1, [[(kinds, least, most, share)] for share in parts(steps, count)], weights
        feasible = [hot for hot in came_to if hot is not None]
        if feasible:
            most = min(feasible)
            break
    times = 4 * (500, 750, 250, 1000) if count == 4 else 4 * (1000, 850)
    yield from copies(left, kinds, [most * part // 1000 for part in times], 100, weights)


def repair(effort):
    return tries(effort, ((REPAIR, 1000, 5000, NEAR), (WIDE, 1000, 20000, WIDELY)))
