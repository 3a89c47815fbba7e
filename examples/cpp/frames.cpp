// Decodes LAPDm frames from blocks of SDCCH and SACCH. On SACCH two layer 1 octets come first: power level and timing advance.
//
//   c++ -std=c++17 -Ibindings/c examples/cpp/frames.cpp dist/$(uname -m)-linux/libum.a -o frames && ./frames
#include "um.hpp"
#include <cstdio>
#include <string>
#include <vector>

using um::channel;

struct Block {
	channel on;
	std::string first; // the first octets; fill octets 2b follow
};

static const std::vector<Block> blocks = {
	{channel::sdcch, "013f250524110333198105f4"},                      // a mobile asks for service
	{channel::sdcch, "0173250524110333198105f4"},                      // the network's answer
	{channel::sdcch, "03200d063501"},                                  // ciphering mode command
	{channel::sdcch, "032101"},                                        // its acknowledgement
	{channel::sacch, "0803030349061d0102030405060708090a0b0c0d0e0f10"},// system information 5
	{channel::sdcch, "0803030349061d0102030405060708090a0b0c0d0e0f10"},// the same, read as SDCCH: the address field seems to continue
	{channel::sdcch, "15062100012b"},                                  // paging on CCCH is not an LAPDm frame, but can look like one
};

static um::block octets_of(const std::string &digits)
{
	um::block octets;
	octets.fill(0x2b);
	for (std::size_t i = 0; i < digits.size() / 2; i++)
		octets[i] = static_cast<std::uint8_t>(std::stoi(digits.substr(2 * i, 2), nullptr, 16));
	return octets;
}

int main()
{
	for (const auto &block : blocks) {
		const auto octets = octets_of(block.first);
		const bool on_sacch = block.on == um::channel::sacch;
		std::printf("%s: ", on_sacch ? "SACCH" : "SDCCH");
		const auto frame = um::read_frame(octets, block.on);
		if (!frame) {
			std::printf("not a frame (%s)\n", um::name(frame.why()).data());
			continue;
		}
		if (on_sacch)
			std::printf("power level %d, timing advance %d, ", octets[0] & 31, octets[1]);
		std::printf("%s sapi %d cr %d pf %d ns %d nr %d more %d info ", um::name(frame->type()).data(), frame->sapi, frame->cr, frame->pf,
			frame->ns, frame->nr, frame->more);
		for (const auto octet : *frame)
			std::printf("%02x", octet);
		std::printf("%s\n", frame->count ? "" : "-");
	}
}
