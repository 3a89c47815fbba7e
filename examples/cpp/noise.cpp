// Encodes blocks, adds noise and decodes them, once by maximum likelihood and once by list decoding with 64 words.
//
//   c++ -std=c++17 -Ibindings/c examples/cpp/noise.cpp dist/$(uname -m)-linux/libum.a -o noise && ./noise
#include "air.hpp"
#include <iostream>

static void run(Air &air, int strength)
{
	int alone = 0, among = 0, wrong = 0;
	for (int at = 0; at < 100; at++) {
		um::block octets;
		for (auto &octet : octets)
			octet = static_cast<std::uint8_t>(air.random() >> 24);
		const auto soft = air.soften(*um::send_block(octets, 7), strength);
		alone += um::receive_block(soft)->data().has_value();
		if (const auto received = um::receive_block_among(soft, 64)->data()) {
			among++;
			wrong += *received != octets;
		}
	}
	std::cout << "noise " << strength << ": of 100 blocks " << alone << " by the most likely word, " << among << " among 64 words, "
		<< wrong << " wrong\n";
}

int main()
{
	Air air;
	for (int strength = 40; strength <= 55; strength += 5)
		run(air, strength);
}
