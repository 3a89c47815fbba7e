// A noisy radio path for the examples: converts hard bits to noisy soft bits. Every language's example draws the same numbers.
#ifndef AIR_HPP
#define AIR_HPP
#include "um.hpp"
#include <algorithm>

class Air {
public:
	// A random number by xorshift (Marsaglia, 2003).
	std::uint32_t random()
	{
		state ^= state << 13;
		state ^= state >> 17;
		state ^= state << 5;
		return state;
	}

	// Sends a bit as 64 or -64 and adds nearly Gaussian noise, a sum of four numbers, with standard deviation `strength`.
	std::int8_t soft(std::uint8_t bit, int strength)
	{
		int noise = -510;
		for (int i = 0; i < 4; i++)
			noise += static_cast<int>(random() >> 24);
		return static_cast<std::int8_t>(std::clamp((bit ? -64 : 64) + noise * strength / 148, -127, 127));
	}

	um::block_soft soften(const um::block_bits &bits, int strength)
	{
		um::block_soft values;
		std::transform(bits.begin(), bits.end(), values.begin(), [&](std::uint8_t bit) { return soft(bit, strength); });
		return values;
	}

private:
	std::uint32_t state = 2463534242u;
};

#endif
