// A mobile and a network over a noisy path that loses blocks: each block is sent as four bursts, with noise, and decoded again. The
// mobile opens the link, both send messages, and the mobile releases the link.
//
// Time advances in slots of 235 ms, in which each endpoint sends one SDCCH block. T200 counts from the time at which a block that awaits
// an answer goes on the air, and exceeds the round trip with the blocks queued before it.
//
//   c++ -std=c++17 -Ibindings/c examples/cpp/session.cpp dist/$(uname -m)-linux/libum.a -o session && ./session
#include "air.hpp"
#include <cstdio>
#include <deque>
#include <numeric>
#include <string>
#include <vector>

constexpr int slot_ms = 235, t200_slots = 4, most_slots = 200;

static std::vector<std::uint8_t> message_of(std::size_t count)
{
	std::vector<std::uint8_t> octets(count);
	std::iota(octets.begin(), octets.end(), std::uint8_t(0));
	return octets;
}

// Sends a block over the noisy path; one in four fades.
static std::optional<um::block> received(Air &air, const um::block &sent)
{
	const int strength = air.random() >> 30 == 0 ? 250 : 40;
	return um::receive_block(air.soften(*um::send_block(sent, 7), strength))->data();
}

class Side {
public:
	int opened = 0, got = 0, acked = 0, closed = 0;

	explicit Side(um::role role) : end(role), name(um::name(role)) {}

	void open(const um::message &info) { done(end.open(info)); }
	void send(const um::message &message) { done(end.send(message)); }
	void close() { done(end.close()); }

	// Runs one slot of an endpoint: T200 may expire, and the first queued block goes on the air.
	void slot(Air &air, Side &other, int time)
	{
		now = other.now = time;
		if (timer && --timer == 0 && end.timer_runs()) {
			say("T200 expires");
			done(end.timer());
		}
		if (queue.empty())
			return;
		const um::block sent = queue.front();
		queue.pop_front();
		const auto there = received(air, sent);
		const auto frame = um::read_frame(sent);
		say("sends " + std::string(um::name(frame->type())) + (there ? "" : ", which is lost"));
		if (frame->awaits_answer())
			timer = t200_slots;
		if (there)
			other.done(other.end.take(*there));
	}

private:
	um::end end;
	std::string name;
	std::deque<um::block> queue;
	int now = 0, timer = 0; // `timer`: slots until T200 expires, or 0 if it does not run

	void say(const std::string &what) const { std::printf("%5d ms  %-7s %s\n", now, name.c_str(), what.c_str()); }

	void done(const um::effects &effects)
	{
		for (const um::block &octets : effects.frames())
			queue.push_back(octets);
		for (const um::notice &notice : effects.notices())
			tell(notice);
	}

	void tell(const um::notice &notice)
	{
		switch (notice.kind) {
		case um::notice_kind::opened:
			opened++;
			return say("is open");
		case um::notice_kind::got:
			got++;
			return say("got a message of " + std::to_string(notice.count) + " octets");
		case um::notice_kind::acked:
			acked++;
			return say("has message " + std::to_string(notice.number) + " acknowledged");
		case um::notice_kind::closed:
			closed++;
			return say(notice.reason == um::reason::released ? "is closed" : "has failed");
		default:
			return;
		}
	}
};

int main()
{
	Air air;
	Side mobile(um::role::mobile), network(um::role::network);
	mobile.open(message_of(9));
	for (int at = 0; at < most_slots && !(mobile.closed && network.closed); at++) {
		const int mobile_was = mobile.opened, network_was = network.opened;
		const bool was_done = mobile.acked == 2 && network.acked == 1;
		mobile.slot(air, network, at * slot_ms);
		network.slot(air, mobile, at * slot_ms);
		if (mobile.opened > mobile_was) {
			mobile.send(message_of(5));
			mobile.send(message_of(60));
		}
		if (network.opened > network_was)
			network.send(message_of(30));
		if (!was_done && mobile.acked == 2 && network.acked == 1)
			mobile.close();
	}
	const bool is_well = mobile.closed == 1 && network.closed == 1 && mobile.got == 1 && network.got == 2;
	std::puts(is_well ? "each message arrived exactly once" : "something is missing");
	return !is_well;
}
