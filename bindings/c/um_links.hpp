// um_links.hpp - the data link of um.hpp: one side of a channel with its loop. Include um.hpp.
#include "um.hpp" // which includes this file where it belongs
#ifndef UM_LINKS_HPP
#define UM_LINKS_HPP

namespace um {

struct link_notice : notice {
	um::sapi sapi; // of the link
};

// What a received block, or a slot, brought: true if the call was accepted.
class [[nodiscard]] link_report {
public:
	explicit operator bool() const { return answer_ == answer::ok || answer_ == answer::free; }
	answer why() const { return answer_; }

	class iterator {
	public:
		iterator(const um_report *report, std::size_t index) : report_(report), at(index) {}
		link_notice operator*() const { return {effects::notice_of(report_->notices[at]), um::sapi(report_->sapis[at])}; }
		iterator &operator++() { return ++at, *this; }
		bool operator!=(const iterator &other) const { return at != other.at; }

	private:
		const um_report *report_;
		std::size_t at;
	};
	struct list {
		const um_report *report;
		iterator begin() const { return {report, 0}; }
		iterator end() const { return {report, report->notice_count}; }
		std::size_t size() const { return report->notice_count; }
	};
	list notices() const & { return {&plain}; }
	void notices() && = delete; // name the report first: it holds the messages

private:
	friend class datalink;
	answer answer_ = answer::ok;
	um_report plain{};
};

// What goes into a slot.
struct [[nodiscard]] sent_block {
	um::block block{};
	bool is_free = false; // nothing is to be sent: the block is the fill frame, and unit() may make another
	link_report report;   // the links that were given up
};

// A data link: a value. In each slot call take() with what arrived, if anything did, then the calls of layer 3, then next() for the block
// to send. T200 is in slots (um.h). If it is made of numbers out of range, its calls answer noend.
class datalink {
public:
	static constexpr std::size_t octet_count = UM_DATALINK_OCTETS;

	// SAPI 3 gets two slots more than SAPI 0
	explicit datalink(um::role side, um::channel on = um::channel::sdcch, std::uint8_t t200 = 4)
		: datalink(side, on, t200, t200 > 253 ? std::uint8_t{255} : static_cast<std::uint8_t>(t200 + 2))
	{
	}

	datalink(um::role side, um::channel on, std::uint8_t t200, std::uint8_t t200_sapi3)
	{
		if (!um_datalink_new(&plain, number(side), number(on), t200, t200_sapi3))
			plain = um_datalink{};
	}

	// for the channel of an assignment or a handover: um::establishment::normal
	datalink(um::role side, um::channel on, um::establishment kind, std::uint8_t t200, std::uint8_t t200_sapi3)
	{
		if (!um_datalink_new_for(&plain, number(side), number(on), number(kind), t200, t200_sapi3))
			plain = um_datalink{};
	}

	[[nodiscard]] answer open(const message &info) { return answer(um_datalink_open(&plain, info.get())); }
	// without information, at either side; a link that is closed or open starts afresh first (um.h)
	[[nodiscard]] answer establish(sapi on) { return answer(um_datalink_establish(&plain, number(on))); }
	[[nodiscard]] answer open_bare() { return answer(um_datalink_open_bare(&plain)); }
	[[nodiscard]] answer send(sapi on, const message &octets) { return answer(um_datalink_send(&plain, number(on), octets.get())); }
	[[nodiscard]] answer close(sapi on) { return answer(um_datalink_close(&plain, number(on))); }
	[[nodiscard]] answer close_local(sapi on) { return answer(um_datalink_close_local(&plain, number(on))); }
	[[nodiscard]] answer main(bool is_established) { return answer(um_datalink_main(&plain, is_established)); }

	// The messages that are not completely acknowledged, oldest first: what to send again over another link.
	messages unacked(sapi on) const
	{
		return messages([&](std::uint8_t index, um_message *to) { return um_datalink_unacked(&plain, number(on), index, to); });
	}

	result<block, answer> unit(sapi on, const message &octets, std::array<std::uint8_t, 2> layer1 = {}) const
	{
		block written;
		const auto why = answer(um_datalink_unit(&plain, number(on), octets.get(), layer1.data(), written.data()));
		return why == answer::ok ? result<block, answer>(written) : why;
	}

	link_report take(block_view octets)
	{
		link_report report;
		report.answer_ = !octets.data() ? answer::count : answer(um_datalink_take(&plain, octets.data(), &report.plain));
		return report;
	}

	// what the block shows of the other side if that breaks the rules; call it before take, which takes the block in any case
	um::fault fault(block_view octets) const
	{
		return octets.data() ? um::fault(um_datalink_fault(&plain, octets.data())) : um::fault::none;
	}

	sent_block next(std::array<std::uint8_t, 2> layer1 = {})
	{
		sent_block sent;
		sent.report.answer_ = answer(um_datalink_next(&plain, layer1.data(), sent.block.data(), &sent.report.plain));
		sent.is_free = sent.report.answer_ == answer::free;
		return sent;
	}

	// Whether nothing waits for a slot and no frame awaits an answer. After `closed` go on until then (um.h).
	bool idle() const { return um_datalink_idle(&plain); }
	um::role role() const { return um::role(plain.link0.end.role); }
	um::establishment establishment() const { return um::establishment(um_datalink_establishment(&plain)); }
	um::channel channel() const { return um::channel(plain.link0.end.channel); }
	um::state state(sapi on) const { return um::state(on == sapi::signalling ? plain.link0.end.state : plain.link3.end.state); }

	std::array<std::uint8_t, octet_count> to_bytes() const
	{
		std::array<std::uint8_t, octet_count> saved;
		um_datalink_to_bytes(&plain, saved.data());
		return saved;
	}
	static std::optional<datalink> from_bytes(view<std::uint8_t, octet_count> saved)
	{
		datalink restored(um::role::mobile);
		return saved.data() && um_datalink_from_bytes(&restored.plain, saved.data()) ? std::optional(restored) : std::nullopt;
	}

private:
	um_datalink plain;
};

// The last answer of a data link, which goes once more into the next slot if that is free: an RR that is lost costs the other side a T200,
// and one that comes twice changes nothing there. One for each data link; call its next() in place of that of the data link.
class last_answer {
public:
	sent_block next(datalink &link, std::array<std::uint8_t, 2> layer1 = {})
	{
		sent_block sent = link.next(layer1);
		if (sent.report)
			sent.is_free = um_say_again(&said, number(link.channel()), number(sent.report.why()), sent.block.data()) == UM_END_FREE;
		return sent;
	}

private:
	um_said said{};
};

} // namespace um
#endif
