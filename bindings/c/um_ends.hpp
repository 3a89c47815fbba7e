// um_ends.hpp - the endpoints of um.hpp, for one link or for both links of a channel. Include um.hpp.
#include "um.hpp" // which includes this file where it belongs
#ifndef UM_ENDS_HPP
#define UM_ENDS_HPP

namespace um {

// Octets of a message. More than 255 are cut there, and refused as too long.
class message {
public:
	message() = default;
	message(const std::uint8_t *octets, std::size_t count)
	{
		plain.count = static_cast<std::uint8_t>(count < 255 ? count : 255);
		if (plain.count)
			std::memcpy(plain.octets, octets, plain.count);
	}
	message(std::initializer_list<std::uint8_t> octets) : message(octets.begin(), octets.size()) {}
	template <class Octets,
		class = std::enable_if_t<std::is_convertible_v<decltype(std::declval<const Octets &>().data()), const std::uint8_t *>>>
	message(const Octets &octets) : message(octets.data(), octets.size()) {}
	const um_message *get() const { return &plain; }
	const std::uint8_t *data() const { return plain.octets; }
	std::size_t size() const { return plain.count; }
	const std::uint8_t *begin() const { return data(); }
	const std::uint8_t *end() const { return data() + size(); }

private:
	friend class messages;
	um_message plain{};
};

// At most eight messages, in order: `for (const um::message &sent : link.unacked(um::sapi::signalling)) ..`
class messages {
public:
	const message *begin() const { return held.data(); }
	const message *end() const { return begin() + size(); }
	std::size_t size() const { return count; }
	bool empty() const { return count == 0; }
	const message &operator[](std::size_t index) const { return held[index]; }

private:
	friend class datalink;
	template <class Call> explicit messages(Call call)
	{
		while (count < held.size() && call(static_cast<std::uint8_t>(count), &held[count].plain) == UM_END_DONE)
			count++;
	}
	std::array<message, 8> held;
	std::size_t count = 0;
};

// What happened. Iteration gives the octets of opened, got and unit, as long as the effects live.
struct notice {
	notice_kind kind;
	um::reason reason;    // of closed
	std::uint64_t number; // of acked
	const std::uint8_t *octets;
	std::size_t count;
	const std::uint8_t *begin() const { return octets; }
	const std::uint8_t *end() const { return octets + count; }
};

// What a call of an endpoint or a side returns: `auto done = side.take(octets); for (um::block out : done.frames()) ..`
class [[nodiscard]] effects {
public:
	explicit operator bool() const { return answer_ == answer::ok; }
	answer why() const { return answer_; }
	// The SAPI of the endpoint that the call was for.
	um::sapi sapi() const { return sapi_; }

	template <class Item, class Plain, Item (*Of)(const Plain &)> class list {
	public:
		class iterator {
		public:
			explicit iterator(const Plain *plain) : at(plain) {}
			Item operator*() const { return Of(*at); }
			iterator &operator++() { return ++at, *this; }
			bool operator!=(const iterator &other) const { return at != other.at; }

		private:
			const Plain *at;
		};
		list(const Plain *first, std::size_t size) : first_(first), size_(size) {}
		iterator begin() const { return iterator(first_); }
		iterator end() const { return iterator(first_ + size_); }
		std::size_t size() const { return size_; }
		bool empty() const { return size_ == 0; }
		Item operator[](std::size_t index) const { return Of(first_[index]); }

	private:
		const Plain *first_;
		std::size_t size_;
	};
	using plain_block = std::uint8_t[23];
	static notice notice_of(const um_notice &n)
	{
		return {notice_kind(n.kind), um::reason(n.reason), n.number, n.message.octets, n.message.count};
	}

	// The blocks to send, at most two, in order.
	list<block, plain_block, copy_of<23>> frames() const & { return {plain.frames, plain.frame_count}; }
	void frames() && = delete; // name the effects first: they hold the blocks
	// What happened, at most three notices, in order.
	list<notice, um_notice, notice_of> notices() const & { return {plain.notices, plain.notice_count}; }
	void notices() && = delete;

private:
	friend class end;
	friend class side;
	template <class Call> effects(um::sapi on, Call call) : sapi_(on) { answer_ = answer(call(&plain)); }
	effects(um::sapi on, answer why) : answer_(why), sapi_(on) {}
	um_effects plain{};
	answer answer_;
	um::sapi sapi_;
};

// An endpoint: a value, which a copy leaves as it is. If it is made of numbers outside the enums, its calls answer noend.
class end {
public:
	static constexpr std::size_t octet_count = UM_END_OCTETS;

	explicit end(um::role role, um::sapi sapi = um::sapi::signalling, um::channel channel = um::channel::sdcch)
	{
		if (!um_end_new(&plain, number(role), number(sapi), number(channel)))
			plain.role = UINT8_MAX;
	}

	effects open(const message &info) { return call([&](um_effects *e) { return um_end_open(&plain, info.get(), e); }); }
	effects open_bare() { return call([&](um_effects *e) { return um_end_open_bare(&plain, e); }); }
	effects send(const message &octets) { return call([&](um_effects *e) { return um_end_send(&plain, octets.get(), e); }); }
	effects unit(const message &octets) const { return call([&](um_effects *e) { return um_end_unit(&plain, octets.get(), e); }); }
	effects close() { return call([&](um_effects *e) { return um_end_close(&plain, e); }); }
	effects timer() { return call([&](um_effects *e) { return um_end_timer(&plain, e); }); }
	effects idle() const { return call([&](um_effects *e) { return um_end_idle(&plain, e); }); }
	effects take(block_view octets)
	{
		return octets.data() ? call([&](um_effects *e) { return um_end_take(&plain, octets.data(), e); }) : effects(sapi(), answer::count);
	}

	um::role role() const { return um::role(plain.role); }
	um::sapi sapi() const { return um::sapi(plain.sapi); }
	um::channel channel() const { return um::channel(plain.channel); }
	um::state state() const { return um::state(plain.state); }
	// Whether a frame awaits an answer, so that T200 runs.
	bool timer_runs() const { return um_end_timer_runs(&plain); }

	// The saved form that all languages read.
	std::array<std::uint8_t, octet_count> to_bytes() const
	{
		std::array<std::uint8_t, octet_count> saved;
		um_end_to_bytes(&plain, saved.data());
		return saved;
	}
	static std::optional<end> from_bytes(view<std::uint8_t, octet_count> saved)
	{
		end restored(um::role::mobile);
		return saved.data() && um_end_from_bytes(&restored.plain, saved.data()) ? std::optional(restored) : std::nullopt;
	}

private:
	friend class side;
	explicit end(const um_end &state) : plain(state) {}
	template <class Call> effects call(Call call) const { return effects(sapi(), call); }
	um_end plain;
};

// Both links of a mobile or of the network on a channel. Each link has its own T200.
class side {
public:
	static constexpr std::size_t octet_count = UM_SIDE_OCTETS;

	explicit side(um::role role, um::channel channel = um::channel::sdcch)
	{
		if (!um_side_new(&plain, number(role), number(channel)))
			plain.link0.role = UINT8_MAX;
	}

	effects open(const message &info)
	{
		return effects(sapi::signalling, [&](um_effects *e) { return um_side_open(&plain, info.get(), e); });
	}
	effects open_bare() { return effects(sapi::short_messages, [&](um_effects *e) { return um_side_open_bare(&plain, e); }); }
	effects send(sapi on, const message &octets)
	{
		return effects(on, [&](um_effects *e) { return um_side_send(&plain, number(on), octets.get(), e); });
	}
	effects unit(sapi on, const message &octets) const
	{
		return effects(on, [&](um_effects *e) { return um_side_unit(&plain, number(on), octets.get(), e); });
	}
	effects close(sapi on) { return effects(on, [&](um_effects *e) { return um_side_close(&plain, number(on), e); }); }
	effects timer(sapi on) { return effects(on, [&](um_effects *e) { return um_side_timer(&plain, number(on), e); }); }
	effects idle() const { return effects(sapi::signalling, [&](um_effects *e) { return um_side_idle(&plain, e); }); }
	// The effects' sapi() is that of the endpoint that took the block.
	effects take(block_view octets)
	{
		std::uint8_t on = 0;
		if (!octets.data())
			return effects(sapi::signalling, answer::count);
		effects done(sapi::signalling, [&](um_effects *e) { return um_side_take(&plain, octets.data(), &on, e); });
		done.sapi_ = um::sapi(on);
		return done;
	}

	// A copy of the endpoint of a SAPI.
	um::end end(sapi on) const { return um::end(on == sapi::signalling ? plain.link0 : plain.link3); }
	bool timer_runs(sapi on) const { return um_side_timer_runs(&plain, number(on)); }

	std::array<std::uint8_t, octet_count> to_bytes() const
	{
		std::array<std::uint8_t, octet_count> saved;
		um_side_to_bytes(&plain, saved.data());
		return saved;
	}
	static std::optional<side> from_bytes(view<std::uint8_t, octet_count> saved)
	{
		side restored(um::role::mobile);
		return saved.data() && um_side_from_bytes(&restored.plain, saved.data()) ? std::optional(restored) : std::nullopt;
	}

private:
	um_side plain;
};

} // namespace um
#endif
