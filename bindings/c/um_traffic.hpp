// um_traffic.hpp - the frames of a traffic channel, its receiver and its sender, and ciphered bursts, for um.hpp. Include um.hpp.
#include "um.hpp" // which includes this file where it belongs
#ifndef UM_TRAFFIC_HPP
#define UM_TRAFFIC_HPP

namespace um {

struct traffic_place {
	std::uint8_t burst;                 // the number of the traffic burst in the 26-multiframe: 0 to 23, at half rate 0 to 11
	std::optional<std::uint8_t> begins; // the number of the block of FACCH that begins with it
	std::optional<std::uint8_t> ends;   // and of the one that ends with it
};

// The traffic burst that a frame carries: nothing if it is of SACCH, of the other half or idle.
inline result<traffic_place, placing> place_traffic(traffic_channel channel, direction way, std::uint32_t frame_number)
{
	um_traffic_place found{};
	const auto why = placing(um_place_traffic(number(channel), number(way), frame_number, &found));
	if (why != placing::placed)
		return why;
	const auto or_none = [](std::uint8_t value) { return value == 255 ? std::nullopt : std::optional(value); };
	return traffic_place{found.burst, or_none(found.begins), or_none(found.ends)};
}

// The first frame number from this one on in which a block of FACCH begins.
inline checked<std::uint32_t> next_facch(traffic_channel channel, direction way, std::uint32_t frame_number)
{
	std::uint32_t first = 0;
	if (frame_number >= frames)
		return invalid::frame_number;
	return um_next_facch(number(channel), number(way), frame_number, &first) ? checked<std::uint32_t>(first) : invalid::channel;
}

struct traffic_block : um_traffic_block {
	traffic_kind what() const { return traffic_kind(kind); }
	std::optional<um::block> data() const { return block.report.accepted ? std::optional(copy_of(block.report.octets)) : std::nullopt; }
	// of FACCH: the burst that was erased, 0 to 7, at half rate 0 to 5
	std::optional<std::uint8_t> erased() const { return erasure.erased < 8 ? std::optional(erasure.erased) : std::nullopt; }
};

// A block of FACCH from the bursts that carry it. If no word's CRC holds, it is decoded again without one of these bursts.
struct facch_report : block_report {
	um_facch_erasure erasure;
	std::optional<std::uint8_t> erased() const { return erasure.erased < 8 ? std::optional(erasure.erased) : std::nullopt; }
};

namespace internal {
template <std::size_t Count, class Call>
checked<facch_report> facch(view<std::int8_t, Count> soft, std::uint32_t most, std::uint8_t erasures, Call call)
{
	if (most < 1 || most > 64)
		return invalid::words;
	if (erasures > Count / 148)
		return invalid::erasures;
	return decoded<facch_report>(soft, [&](facch_report &report) {
		const auto bursts = reinterpret_cast<const std::int8_t(*)[148]>(soft.data());
		return call(bursts, most, erasures, &report, &report.rank, &report.erasure);
	});
}
} // namespace internal

// At full rate eight bursts, of which at most eight are erased in turn.
inline checked<facch_report> receive_facch_f_erasing(view<std::int8_t, 8 * 148> soft, std::uint32_t most, std::uint8_t erasures)
{
	return internal::facch(soft, most, erasures, um_receive_facch_f_erasing);
}

// At half rate six.
inline checked<facch_report> receive_facch_h_erasing(view<std::int8_t, 6 * 148> soft, std::uint32_t most, std::uint8_t erasures)
{
	return internal::facch(soft, most, erasures, um_receive_facch_h_erasing);
}

// What a receiver says of a frame: true if the frame was taken. The blocks that ended before it and the one that it completes, at most
// three, are the elements.
class [[nodiscard]] heard_frame {
public:
	explicit operator bool() const { return why_ == heard::taken || why_ == heard::block; }
	heard why() const { return why_; }
	std::size_t size() const { return count_; }
	const traffic_block *begin() const & { return blocks_.data(); }
	const traffic_block *end() const & { return blocks_.data() + count_; }
	void begin() && = delete; // name the answer first: it holds the blocks
	void end() && = delete;

private:
	friend class traffic;
	heard why_ = heard::taken;
	std::size_t count_ = 0;
	std::array<traffic_block, 3> blocks_{};
};

// A receiver of a traffic channel, FACCH and SACCH: a value. If it is made of numbers out of range, its calls answer heard::notraffic.
class traffic {
public:
	explicit traffic(traffic_channel channel, um::direction way = um::direction::downlink, std::uint8_t timeslot = 0,
		std::uint8_t words = 1, std::uint8_t erasures = 0)
	{
		if (!um_traffic_new(&plain, number(channel), number(way), timeslot, words, erasures)) {
			plain = um_traffic{};
			plain.channel = UINT8_MAX;
		}
	}

	// Takes the burst of a frame. If all soft bits of the joined block that it completes are 0 or 1 and one is 1, the answer is
	// heard::hardbits, and the receiver is unchanged. Of a block that ended before it, this burst is not to blame.
	heard_frame take(std::uint32_t frame_number, view<std::int8_t, 148> burst)
	{
		const um_traffic before = plain;
		heard_frame answer;
		if (!burst.data()) {
			answer.why_ = heard::count;
			return answer;
		}
		answer = blocks_of([&](um_traffic_block *next) { return um_traffic_take(&plain, frame_number, burst.data(), next); });
		if (answer.why_ != heard::block)
			return answer;
		const traffic_block &completed = answer.blocks_[answer.count_ - 1];
		if (completed.what() != traffic_kind::sacch && um_are_hard_bits(completed.bursts[0], 592)) {
			plain = before;
			answer.why_ = heard::hardbits;
			answer.count_ = 0;
		}
		return answer;
	}

	// Takes a frame whose burst did not come.
	heard_frame miss(std::uint32_t frame_number)
	{
		return blocks_of([&](um_traffic_block *next) { return um_traffic_miss(&plain, frame_number, next); });
	}

	// Ends the blocks being collected, at the end of a recording.
	heard_frame end()
	{
		heard_frame answer = blocks_of([&](um_traffic_block *next) { return um_traffic_end(&plain, next); });
		traffic_block &sacch = answer.blocks_[answer.count_];
		if (answer && um_slot_end(&plain.sacch, &sacch.block) == UM_SLOT_BLOCK) {
			sacch.kind = UM_TRAFFIC_SACCH;
			answer.count_++;
		}
		return answer;
	}

	// Forgets the frames taken and the blocks being collected; the settings stay. False: the state is not valid.
	[[nodiscard]] bool restart() { return um_traffic_restart(&plain); }

	// As of a slot.
	void limit(std::uint8_t wrong) { plain.sacch.limit = wrong; }
	std::uint8_t limit() const { return plain.sacch.limit; }

	traffic_channel channel() const { return traffic_channel(plain.channel); }
	um::direction direction() const { return um::direction(plain.sacch.direction); }

	static constexpr std::size_t octet_count = UM_TRAFFIC_OCTETS;
	std::array<std::uint8_t, octet_count> to_bytes() const
	{
		std::array<std::uint8_t, octet_count> saved;
		um_traffic_to_bytes(&plain, saved.data());
		return saved;
	}
	static std::optional<traffic> from_bytes(view<std::uint8_t, octet_count> saved)
	{
		traffic restored(traffic_channel::full_rate);
		return saved.data() && um_traffic_from_bytes(&restored.plain, saved.data()) ? std::optional(restored) : std::nullopt;
	}

	// The bursts of the block that was reported last, as they came: until the next call. At half rate six.
	const std::int8_t (&bursts() const)[8][148] { return plain.bursts; }

private:
	// Calls until a frame is taken: at most two blocks end before it.
	template <class Call> static heard_frame blocks_of(Call call)
	{
		heard_frame answer;
		do {
			answer.why_ = heard(call(&answer.blocks_[answer.count_]));
			answer.count_ += answer.why_ == heard::block || answer.why_ == heard::earlier;
		} while (answer.why_ == heard::earlier && answer.count_ < answer.blocks_.size());
		return answer;
	}
	um_traffic plain;
};

// A sender of a traffic channel: a value. If it is made of numbers out of range, its calls answer sending::nosender and false.
class traffic_sender {
public:
	explicit traffic_sender(traffic_channel channel, um::direction way = um::direction::downlink, std::uint8_t tsc = 0)
	{
		if (!um_traffic_sender_new(&plain, number(channel), number(way), tsc)) {
			plain = um_traffic_sender{};
			plain.channel = plain.tsc = UINT8_MAX;
		}
	}

	// Gives a block of FACCH, in place of speech that waits. False: a block of FACCH waits.
	[[nodiscard]] bool facch(block_view octets) { return octets.data() && um_traffic_sender_facch(&plain, octets.data()); }

	// Gives a block of speech: its four joined bursts, at half rate of two frames. False: a block of FACCH waits, which steals its place.
	checked<bool> speech(view<std::uint8_t, 592> joined)
	{
		if (!joined.data())
			return invalid::count;
		if (!internal::are_bits(joined.data(), 592))
			return invalid::bit;
		return um_traffic_sender_speech(&plain, reinterpret_cast<const std::uint8_t(*)[148]>(joined.data()));
	}

	// The burst of a frame. No burst: sending::nothing or sending::unplaced if nothing is to be sent, or why the frame is refused.
	result<std::array<std::uint8_t, 148>, sending> burst(std::uint32_t frame_number)
	{
		std::array<std::uint8_t, 148> bits;
		const auto answer = sending(um_traffic_sender_burst(&plain, frame_number, bits.data()));
		if (answer != sending::burst)
			return answer;
		return bits;
	}

	static constexpr std::size_t octet_count = UM_TRAFFIC_SENDER_OCTETS;
	std::array<std::uint8_t, octet_count> to_bytes() const
	{
		std::array<std::uint8_t, octet_count> saved;
		um_traffic_sender_to_bytes(&plain, saved.data());
		return saved;
	}
	static std::optional<traffic_sender> from_bytes(view<std::uint8_t, octet_count> saved)
	{
		traffic_sender restored(traffic_channel::full_rate);
		return saved.data() && um_traffic_sender_from_bytes(&restored.plain, saved.data()) ? std::optional(restored) : std::nullopt;
	}

	traffic_channel channel() const { return traffic_channel(plain.channel); }
	um::direction direction() const { return um::direction(plain.direction); }

private:
	um_traffic_sender plain;
};

// The 114 coded bits of a burst ciphered or deciphered by a key stream; invalid::bit: an octet of either is no bit.
inline checked<std::array<std::uint8_t, 148>> cipher_bits(view<std::uint8_t, 148> burst, view<std::uint8_t, 114> stream)
{
	std::array<std::uint8_t, 148> ciphered;
	if (!burst.data() || !stream.data())
		return invalid::count;
	std::memcpy(ciphered.data(), burst.data(), 148);
	return um_cipher_bits(ciphered.data(), stream.data()) ? checked<std::array<std::uint8_t, 148>>(ciphered) : invalid::bit;
}

// The same for soft bits: the sign changes where the stream has 1.
inline checked<std::array<std::int8_t, 148>> soft_cipher(view<std::int8_t, 148> burst, view<std::uint8_t, 114> stream)
{
	std::array<std::int8_t, 148> deciphered;
	if (!burst.data() || !stream.data())
		return invalid::count;
	if (!internal::are_bits(stream.data(), 114))
		return invalid::bit;
	std::memcpy(deciphered.data(), burst.data(), 148);
	return um_soft_cipher(deciphered.data(), stream.data()) ? checked<std::array<std::int8_t, 148>>(deciphered) : invalid::soft_value;
}

} // namespace um
#endif
