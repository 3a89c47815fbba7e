// 64 links over a channel that loses one block in ten: each mobile opens its link, sends a message, and closes when it is acknowledged.
//
//   c++ -std=c++17 -Ibindings/c examples/cpp/links.cpp dist/$(uname -m)-linux/libum.a -o links && ./links
#include "air.hpp"
#include <cstdio>
#include <vector>

constexpr int link_count = 64, side_count = 2 * link_count, most_slots = 1000;
static int got, closed, refused;

static void handle(um::datalink &side, const um::link_report &report)
{
	for (const um::link_notice notice : report.notices()) {
		if (notice.kind == um::notice_kind::opened && side.role() == um::role::mobile)
			refused += side.send(notice.sapi, std::vector<std::uint8_t>(100)) != um::answer::ok;
		if (notice.kind == um::notice_kind::acked)
			refused += side.close(notice.sapi) != um::answer::ok;
		got += notice.kind == um::notice_kind::got && notice.count == 100;
		closed += notice.kind == um::notice_kind::closed && notice.reason == um::reason::released;
	}
}

int main()
{
	Air air;
	std::vector<um::datalink> sides;
	std::vector<std::optional<um::block>> arriving(side_count);
	int slot = 0;
	for (int i = 0; i < side_count; i++)
		sides.emplace_back(i % 2 ? um::role::network : um::role::mobile);
	for (std::size_t i = 0; i < sides.size(); i += 2)
		refused += sides[i].open({0x05, 0x24}) != um::answer::ok;
	for (; closed < side_count && slot < most_slots; slot++) {
		for (std::size_t i = 0; i < sides.size(); i++)
			if (arriving[i])
				handle(sides[i], sides[i].take(*arriving[i]));
		for (std::size_t i = 0; i < sides.size(); i++) {
			const auto sent = sides[i].next();
			handle(sides[i], sent.report);
			arriving[i ^ 1] = air.random() % 10 ? std::optional(sent.block) : std::nullopt;
		}
	}
	std::printf("%d links, one block in ten lost: after %d slots %d messages have arrived and %d sides are closed\n", link_count, slot, got,
		closed);
	return closed < side_count || refused;
}
