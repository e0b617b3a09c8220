"""The longest waits of class B by a plain model of the shaper, bit time by bit time (IEEE Std 802.1Q-2018, 8.6.8.2),
for the inputs that tools/waits makes, compared with the answers in a file."""
import sys

RATE = 100_000_000
LONGEST = 12_336


class Numbers:
    def __init__(self, seed):
        self.state = seed

    def next(self, bound):
        self.state = (self.state * 6364136223846793005 + 1442695040888963407) % 2**64
        return (self.state >> 33) % bound


def slopes_of(numbers, cap_a, cap_ab):
    slopes, bit = {}, 0
    for _ in range(numbers.next(3) + 1):
        slope_a = numbers.next(cap_a + 1)
        if numbers.next(2) == 0:
            slope_a = cap_a
        slopes[bit] = (slope_a, numbers.next(cap_ab - slope_a + 1))
        bit += numbers.next(2000) + 1
    return slopes


def arrivals_of(numbers, end):
    arrivals, bit = {}, numbers.next(3)
    for _ in range(24):
        traffic = "OBAA"[numbers.next(4)]
        bits = LONGEST if numbers.next(8) == 0 else numbers.next(600) + 336
        if bit < end:
            arrivals.setdefault(bit, []).append((traffic, bits))
        if numbers.next(3) == 0:
            bit += numbers.next(1000)
    return arrivals


def stepped(credit, slope, sends, waits):
    if sends:
        return credit + slope - RATE
    return credit + slope if waits else min(0, credit + slope)


def waits_of(slopes, arrivals, end):
    """The longest wait, and the greatest credit of class B."""
    queues = {"A": [], "B": [], "O": []}
    credit_a = credit_b = slope_a = slope_b = free_from = now = worst = high = 0
    line = None
    for bit in range(end):
        slope_a, slope_b = slopes.get(bit, (slope_a, slope_b))
        for traffic, bits in arrivals.get(bit, ()):
            queues[traffic].append(bits)
        if free_from <= bit:
            line = None
            if queues["A"] and credit_a >= 0:
                line = "A"
            elif queues["B"] and credit_b >= 0:
                line = "B"
            elif queues["O"]:
                line = "O"
            if line:
                free_from = bit + queues[line].pop(0)
        now = now + 1 if queues["B"] and credit_b >= 0 and line != "B" else 0
        worst = max(worst, now)
        credit_a = stepped(credit_a, slope_a, line == "A", queues["A"])
        credit_b = stepped(credit_b, slope_b, line == "B", queues["B"])
        high = max(high, credit_b)
    return worst, high


def main():
    answers = open(sys.argv[1]).read().split("\n")[:-1]
    passed = failed = waited = 0
    nearest = 0.0
    for seed, answer in enumerate(answers, 1):
        numbers = Numbers(seed)
        cap_a = numbers.next(90) * 1_000_000
        cap_ab = cap_a + numbers.next(90_000_001 - cap_a)
        end = numbers.next(10_000) + 1
        slopes = slopes_of(numbers, cap_a, cap_ab)
        worst, high = waits_of(slopes, arrivals_of(numbers, end), end)
        tight = LONGEST * (2 * RATE - cap_a) // (RATE - cap_a)
        if answer == str(worst) and worst <= tight and high <= 2 * LONGEST * cap_ab:
            passed += 1
        else:
            failed += 1
            print(f"waits: seed {seed}: {answer}, and {worst} bit time by bit time, of {tight}")
        waited += worst > 0
        nearest = max(nearest, worst / tight)
    print(f"waits: {passed} passed, {failed} failed; class B waits in {waited}, for {nearest:.0%} of the tight bound at most")
    return 1 if failed or passed < 10_000 else 0


sys.exit(main())
