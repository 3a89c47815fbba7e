// um_slots.hpp - frame numbers, synchronisation bursts, the channels of a time slot and its receiver, for um.hpp. Include um.hpp.
#include "um.hpp" // which includes this file where it belongs
#ifndef UM_SLOTS_HPP
#define UM_SLOTS_HPP

namespace um {

constexpr std::uint32_t frames = UM_FRAMES; // frame numbers are 0 to frames - 1

inline checked<um_time> time_of_frame(std::uint32_t frame_number)
{
	um_time time{};
	return um_time_of_frame(frame_number, &time) ? checked<um_time>(time) : invalid::frame_number;
}

inline checked<std::uint32_t> frame_of_time(const um_time &time)
{
	std::uint32_t frame_number = 0;
	return um_frame_of_time(&time, &frame_number) ? checked<std::uint32_t>(frame_number) : invalid::time;
}

// Reads the 25 data bits of a synchronisation burst. invalid::sch: no frame number has these bits.
inline checked<um_sch> read_sch(view<std::uint8_t, 25> info)
{
	um_sch sch{};
	if (!info.data())
		return invalid::count;
	if (!internal::are_bits(info.data(), 25))
		return invalid::bit;
	return um_read_sch(info.data(), &sch) ? checked<um_sch>(sch) : invalid::sch;
}

inline checked<std::array<std::uint8_t, 25>> write_sch(std::uint8_t bsic, std::uint32_t frame_number)
{
	std::array<std::uint8_t, 25> info;
	if (bsic > 63)
		return invalid::bsic;
	if (frame_number >= frames)
		return invalid::frame_number;
	return um_write_sch(bsic, frame_number, info.data()) ? checked<std::array<std::uint8_t, 25>>(info) : invalid::sch;
}

// RA, the octet of a CHANNEL REQUEST, as the data bits of an access burst.
inline std::array<std::uint8_t, 8> write_ra(std::uint8_t ra)
{
	std::array<std::uint8_t, 8> info;
	um_write_ra(ra, info.data());
	return info;
}

inline checked<std::uint8_t> read_ra(view<std::uint8_t, 8> info)
{
	std::uint8_t ra = 0;
	if (!info.data())
		return invalid::count;
	return um_read_ra(info.data(), &ra) ? checked<std::uint8_t>(ra) : invalid::bit;
}

inline checked<std::array<std::uint8_t, 6>> write_bsic(std::uint8_t bsic)
{
	std::array<std::uint8_t, 6> bits;
	return um_write_bsic(bsic, bits.data()) ? checked<std::array<std::uint8_t, 6>>(bits) : invalid::bsic;
}

inline checked<std::uint8_t> read_bsic(view<std::uint8_t, 6> bits)
{
	std::uint8_t bsic = 0;
	if (!bits.data())
		return invalid::count;
	return um_read_bsic(bits.data(), &bsic) ? checked<std::uint8_t>(bsic) : invalid::bit;
}

struct place {
	std::uint32_t first;     // the frame number of the block's first burst; for FCCH, SCH and RACH that of the burst
	carried channel;
	std::uint8_t subchannel; // of SDCCH and SACCH; for CCCH the number of the block in the multiframe; else 0
	std::uint8_t burst;      // which burst of the block
};

// The channel and the burst that a frame carries: nothing if it is idle or carries traffic.
inline result<place, placing> place_frame(combination channels, direction way, std::uint8_t timeslot, std::uint32_t frame_number)
{
	um_place found{};
	const auto why = placing(um_place_frame(number(channels), number(way), timeslot, frame_number, &found));
	if (why != placing::placed)
		return why;
	return place{found.first, carried(found.channel), found.subchannel, found.burst};
}

inline checked<std::uint32_t> next_block(combination channels, direction way, std::uint8_t timeslot, carried channel,
	std::uint8_t subchannel, std::uint32_t frame_number)
{
	std::uint32_t first = 0;
	if (frame_number >= frames)
		return invalid::frame_number;
	if (timeslot > 7)
		return invalid::timeslot;
	return um_next_block(number(channels), number(way), timeslot, number(channel), subchannel, frame_number, &first)
		? checked<std::uint32_t>(first) : invalid::channel;
}

// A block whose CRC holds for no word is decoded again without one of its bursts.
struct erasing_report : block_report {
	um_erasure erasure;
	std::optional<std::uint8_t> erased() const { return erasure.erased < 4 ? std::optional(erasure.erased) : std::nullopt; }
};

inline checked<erasing_report> receive_block_erasing(soft_view soft, std::uint32_t most, std::uint8_t erasures)
{
	if (most < 1 || most > 64)
		return invalid::words;
	if (erasures > 4)
		return invalid::erasures;
	return internal::decoded<erasing_report>(soft, [&](erasing_report &report) {
		return um_receive_block_erasing(internal::rows(soft), most, erasures, &report, &report.rank, &report.erasure);
	});
}

struct training {
	std::uint8_t tsc;
	std::array<std::uint8_t, 4> wrong; // bit errors in the 26 training bits of each burst
};

inline checked<training> detect_training(soft_view soft)
{
	return internal::decoded<training>(
		soft, [&](training &found) { return um_detect_training(internal::rows(soft), &found.tsc, found.wrong.data()); });
}

struct slot_block : um_slot_block {
	um::carried on() const { return carried(channel); }
	std::optional<block> data() const { return report.accepted ? std::optional(copy_of(report.octets)) : std::nullopt; }
	std::optional<std::uint8_t> erased() const { return erasure.erased < 4 ? std::optional(erasure.erased) : std::nullopt; }
};

// What a receiver says of a frame: true if the frame was taken; block() is the block that is then complete, if one is.
class [[nodiscard]] taken_frame {
public:
	explicit operator bool() const { return why_ == taken::taken || why_ == taken::block; }
	taken why() const { return why_; }
	const slot_block *block() const & { return why_ == taken::block ? &block_ : nullptr; }
	void block() && = delete; // name the answer first: it holds the block

private:
	friend class slot;
	taken why_ = taken::taken;
	slot_block block_{};
};

// A receiver of one time slot: a value. If it is made of numbers out of range, its calls answer taken::noslot.
class slot {
public:
	static constexpr std::size_t octet_count = UM_SLOT_OCTETS;

	explicit slot(um::combination channels, um::direction way = um::direction::downlink, std::uint8_t timeslot = 0,
		std::uint8_t words = 1, std::uint8_t erasures = 0)
	{
		if (!um_slot_new(&plain, number(channels), number(way), timeslot, words, erasures)) {
			plain = um_slot{};
			plain.combination = UINT8_MAX;
		}
	}

	// Takes the burst of a frame. If all soft bits of the block are 0 or 1 and one is 1, the answer is taken::hardbits, and the receiver is
	// unchanged.
	taken_frame take(std::uint32_t frame_number, view<std::int8_t, 148> burst)
	{
		const um_slot before = plain;
		taken_frame answer;
		if (!burst.data()) {
			answer.why_ = taken::count;
			return answer;
		}
		answer.why_ = taken(um_slot_take(&plain, frame_number, burst.data(), &answer.block_));
		if (answer.why_ == taken::block && are_hard_bits(before, answer.block_.first, frame_number, burst)) {
			plain = before;
			answer.why_ = taken::hardbits;
		}
		return answer;
	}

	// Takes a frame whose burst did not come.
	taken_frame miss(std::uint32_t frame_number)
	{
		taken_frame answer;
		answer.why_ = taken(um_slot_miss(&plain, frame_number, &answer.block_));
		return answer;
	}

	// Ends the block being collected, at the end of a recording: taken::block if one was, else taken::taken.
	taken_frame end()
	{
		taken_frame answer;
		answer.why_ = taken(um_slot_end(&plain, &answer.block_));
		return answer;
	}

	// Forgets the frames taken and the block being collected; the settings stay. False: the state is not valid. After several late frames in
	// a row a false frame number or a long pause came before.
	[[nodiscard]] bool restart() { return um_slot_restart(&plain); }

	// More words and erasures are tried only in a block whose three best bursts have at most so many wrong training bits, 0 to 78. Above 78:
	// the calls answer taken::noslot.
	void limit(std::uint8_t wrong) { plain.limit = wrong; }
	std::uint8_t limit() const { return plain.limit; }

	um::combination combination() const { return um::combination(plain.combination); }
	um::direction direction() const { return um::direction(plain.direction); }

	std::array<std::uint8_t, octet_count> to_bytes() const
	{
		std::array<std::uint8_t, octet_count> saved;
		um_slot_to_bytes(&plain, saved.data());
		return saved;
	}
	static std::optional<slot> from_bytes(view<std::uint8_t, octet_count> saved)
	{
		slot restored(um::combination::sdcch8);
		return saved.data() && um_slot_from_bytes(&restored.plain, saved.data()) ? std::optional(restored) : std::nullopt;
	}

private:
	// Whether a block is of hard bits: those held, and this burst. If the frame is of a later block, its burst is not to blame, and if it
	// were refused, so would be every later one.
	static bool are_hard_bits(const um_slot &before, std::uint32_t first, std::uint32_t frame_number, view<std::int8_t, 148> burst)
	{
		std::int8_t soft[4][148] = {};
		um_place found{};
		if (um_place_frame(before.combination, before.direction, before.timeslot, frame_number, &found) != UM_PLACED || found.first != first)
			return false;
		if (before.first == first)
			std::memcpy(soft, before.bursts, sizeof soft);
		std::memcpy(soft[found.burst], burst.data(), 148);
		return um_are_hard_bits(soft[0], 592);
	}
	um_slot plain;
};

} // namespace um
#endif
