"""A noisy radio path for the examples: converts hard bits to noisy soft bits. Every language's example draws the same numbers."""
import array


class Air:
    def __init__(self):
        self._state = 2463534242

    def random(self):
        """A 32-bit random number by xorshift (Marsaglia, 2003)."""
        state = self._state
        state ^= state << 13 & 0xFFFFFFFF
        state ^= state >> 17
        state ^= state << 5 & 0xFFFFFFFF
        self._state = state
        return state

    def soft(self, bit, strength):
        """Sends a bit as 64 or -64 and adds nearly Gaussian noise, a sum of four numbers, with standard deviation `strength`."""
        noise = sum(self.random() >> 24 for _ in range(4)) - 510
        return max(-127, min(127, (-64 if bit else 64) + int(noise * strength / 148)))

    def soften(self, bursts, strength):
        return [array.array("b", (self.soft(bit, strength) for bit in burst)) for burst in bursts]
