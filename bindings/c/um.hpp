// um.hpp - um.h for C++17: values in place of casts, raw arrays and numbers. Header only, over um.h and um_more.h; link libum as in C.
//
// No call allocates memory or throws. A call returns a result or effects: true if it was accepted; if not, why() says why, and name() and
// text() give the word and the text of that. What a refused call returns is zeros. Everything else is as um.h says.
//
//   if (auto report = um::receive_block(soft))        // 592 soft bits, flat or four of 148: std::array, C array, std::span, std::vector
//       if (auto octets = report->data())             // the block, if the CRC holds
//           use(*octets, report->wrong_coded);
#ifndef UM_HPP
#define UM_HPP
#include "um_names.hpp"
#include "um_soft.h"
#include <array>
#include <cstddef>
#include <cstdint>
#include <cstring>
#include <initializer_list>
#include <optional>
#include <type_traits>
#include <utility>
#if __cplusplus >= 202002L
#include <span>
#endif

namespace um {

// What a call returns: a value, or why it was refused. The first number of Why means that it was not.
template <class T, class Why> class [[nodiscard]] result {
public:
	constexpr result(const T &value) : value_(value) {}
	constexpr result(Why why) : why_(why) {}
	constexpr explicit operator bool() const { return why_ == Why{}; }
	constexpr Why why() const { return why_; }
	constexpr const T &operator*() const { return value_; }
	constexpr const T *operator->() const { return &value_; }

private:
	T value_{};
	Why why_{};
};
template <class T> using checked = result<T, invalid>;

namespace internal {
// whether the size of a container is part of its type
template <class Values> struct has_fixed_size : std::false_type {};
template <class T, std::size_t Count> struct has_fixed_size<std::array<T, Count>> : std::true_type {};
#if defined __cpp_lib_span
template <class T, std::size_t Count> struct has_fixed_size<std::span<T, Count>> : std::bool_constant<Count != std::dynamic_extent> {};
#endif
} // namespace internal

// What a call reads: Count values in contiguous memory.
template <class T, std::size_t Count> class view {
public:
	constexpr view(const std::array<T, Count> &values) : at(values.data()) {}
	constexpr view(const T (&values)[Count]) : at(values) {}
	template <std::size_t N> constexpr view(const T (&rows)[N][Count / N]) : at(rows[0]) { static_assert(Count % N == 0, "rows"); }
	template <std::size_t N> constexpr view(const std::array<std::array<T, Count / N>, N> &rows) : at(rows[0].data())
	{
		static_assert(Count % N == 0 && sizeof rows == Count * sizeof(T), "rows without padding");
	}
#if defined __cpp_lib_span
	constexpr view(std::span<const T, Count> values) : at(values.data()) {}
#endif
	// Memory whose size is known at run time, such as a std::vector or a std::span. If that is not Count, the call answers `count`.
	template <class Values,
		class = std::enable_if_t<!internal::has_fixed_size<Values>::value &&
			std::is_convertible_v<decltype(std::declval<const Values &>().data()), const T *> &&
			std::is_convertible_v<decltype(std::declval<const Values &>().size()), std::size_t>>>
	constexpr view(const Values &values) : at(values.size() == Count ? values.data() : nullptr) {}
	// The first Count values of more; nothing if there are fewer.
	static constexpr std::optional<view> of(const T *values, std::size_t count)
	{
		return count < Count ? std::nullopt : std::optional<view>(view(values));
	}
	// Null if there were not Count values.
	constexpr const T *data() const { return at; }

private:
	constexpr explicit view(const T *values) : at(values) {}
	const T *at;
};

// The version of the library, as um.h says; that of the headers is UM_VERSION_NUMBER.
inline std::uint32_t version() { return um_version(); }

using block = std::array<std::uint8_t, 23>; // the 23 octets of a block
using block_bits = std::array<std::uint8_t, 592>;
using block_soft = std::array<std::int8_t, 592>;
using block_view = view<std::uint8_t, 23>;
using soft_view = view<std::int8_t, 592>;

// Soft bits of hard bits: 127 for 0, -127 for 1.
template <std::size_t Count> constexpr std::array<std::int8_t, Count> soft_from_bits(const std::array<std::uint8_t, Count> &bits)
{
	std::array<std::int8_t, Count> soft{};
	for (std::size_t i = 0; i < Count; i++)
		soft[i] = bits[i] ? std::int8_t{-127} : std::int8_t{127};
	return soft;
}

// Soft bits of logarithms of likelihood ratios, or other numbers that are positive for a 0; a negative scale for those positive for a 1.
template <std::size_t Count>
checked<std::array<std::int8_t, Count>> soft_from_llr(const std::array<float, Count> &ratios, float scale = UM_LLR_SCALE)
{
	std::array<std::int8_t, Count> soft;
	if (!um_soft_from_llr(ratios.data(), scale, soft.data(), Count))
		return invalid::ratio;
	return soft;
}

// Soft bits of libosmocore's sbit_t: -128 becomes -127.
template <std::size_t Count> std::array<std::int8_t, Count> soft_from_sbits(const std::array<std::int8_t, Count> &sbits)
{
	std::array<std::int8_t, Count> soft;
	um_soft_from_sbits(sbits.data(), soft.data(), Count);
	return soft;
}

// Soft bits of octets of the TRX protocol: 0 a certain 0 .. 255 a certain 1.
template <std::size_t Count> std::array<std::int8_t, Count> soft_from_trx(const std::array<std::uint8_t, Count> &values)
{
	std::array<std::int8_t, Count> soft;
	um_soft_from_trx(values.data(), soft.data(), Count);
	return soft;
}

template <std::size_t Count> std::array<std::uint8_t, Count> copy_of(const std::uint8_t (&octets)[Count])
{
	std::array<std::uint8_t, Count> copy;
	std::memcpy(copy.data(), octets, Count);
	return copy;
}

// Blocks

struct block_report : um_block_report {
	std::uint32_t rank;
	// Keep it in a variable: until C++23 a loop over *report.data() reads a temporary that is gone.
	std::optional<block> data() const { return accepted ? std::optional(copy_of(octets)) : std::nullopt; }
};

struct repair_report : um_repair_report {
	um::repaired outcome;
};

namespace internal {
inline const std::int8_t (*rows(soft_view soft))[148] { return reinterpret_cast<const std::int8_t (*)[148]>(soft.data()); }

// A call on soft bits, which are tested first: hard bits passed by mistake would be decoded.
template <class Report, std::size_t Count, class Call> checked<Report> decoded(view<std::int8_t, Count> soft, Call call)
{
	Report report{};
	if (!soft.data())
		return invalid::count;
	if (um_are_hard_bits(soft.data(), Count))
		return invalid::hard_bits;
	return call(report) ? checked<Report>(report) : invalid::soft_value;
}

inline bool are_bits(const std::uint8_t *values, std::size_t count)
{
	for (std::size_t i = 0; i < count; i++)
		if (values[i] > 1)
			return false;
	return true;
}
} // namespace internal

inline checked<block_bits> send_block(block_view octets, std::uint8_t tsc)
{
	block_bits bits;
	if (!octets.data())
		return invalid::count;
	if (!um_send_block(octets.data(), tsc, reinterpret_cast<std::uint8_t (*)[148]>(bits.data())))
		return invalid::training_sequence;
	return bits;
}

inline checked<block_report> receive_block(soft_view soft)
{
	return internal::decoded<block_report>(soft, [&](block_report &report) {
		report.rank = 1;
		return um_receive_block(internal::rows(soft), &report);
	});
}

inline checked<block_report> receive_block_among(soft_view soft, std::uint32_t most)
{
	if (most < 1 || most > 64)
		return invalid::words;
	return internal::decoded<block_report>(
		soft, [&](block_report &report) { return um_receive_block_among(internal::rows(soft), most, &report, &report.rank); });
}

inline checked<um_margin_report> margin_block(soft_view soft)
{
	return internal::decoded<um_margin_report>(
		soft, [&](um_margin_report &report) { return um_margin_block(internal::rows(soft), &report); });
}

// FACCH: a block in stolen halves of the bursts of a traffic channel, of eight at full rate (_f) and of six at half rate (_h)

using burst_bits_f = std::array<std::uint8_t, 8 * 148>;
using burst_bits_h = std::array<std::uint8_t, 6 * 148>;

// The bursts with a block in its halves of them.
inline checked<burst_bits_f> steal_facch_f(view<std::uint8_t, 592> four, view<std::uint8_t, 8 * 148> bursts)
{
	burst_bits_f bits;
	std::memcpy(bits.data(), bursts.data(), bits.size());
	if (!um_steal_facch_f(reinterpret_cast<const std::uint8_t (*)[148]>(four.data()), reinterpret_cast<std::uint8_t (*)[148]>(bits.data())))
		return invalid::bit;
	return bits;
}

inline checked<burst_bits_h> steal_facch_h(view<std::uint8_t, 592> four, view<std::uint8_t, 6 * 148> bursts)
{
	burst_bits_h bits;
	std::memcpy(bits.data(), bursts.data(), bits.size());
	if (!um_steal_facch_h(reinterpret_cast<const std::uint8_t (*)[148]>(four.data()), reinterpret_cast<std::uint8_t (*)[148]>(bits.data())))
		return invalid::bit;
	return bits;
}

// The four bursts of the block whose halves these carry, for receive_block and all other calls on 592 soft bits.
inline checked<block_soft> join_facch_f(view<std::int8_t, 8 * 148> soft)
{
	return internal::decoded<block_soft>(soft, [&](block_soft &joined) {
		return um_join_facch_f(
			reinterpret_cast<const std::int8_t (*)[148]>(soft.data()), reinterpret_cast<std::int8_t (*)[148]>(joined.data()));
	});
}

inline checked<block_soft> join_facch_h(view<std::int8_t, 6 * 148> soft)
{
	return internal::decoded<block_soft>(soft, [&](block_soft &joined) {
		return um_join_facch_h(
			reinterpret_cast<const std::int8_t (*)[148]>(soft.data()), reinterpret_cast<std::int8_t (*)[148]>(joined.data()));
	});
}

// The sum of a joined block's eight stealing flags, negative if they rather say FACCH, and how many do not say so.
struct stealing {
	std::int32_t sum;
	std::uint8_t wrong;
};

inline checked<stealing> stealing_flags(soft_view joined)
{
	return internal::decoded<stealing>(
		joined, [&](stealing &flags) { return um_stealing_flags(internal::rows(joined), &flags.sum, &flags.wrong); });
}

// The report is written if the outcome is repaired::repaired.
inline checked<repair_report> repair(view<std::uint8_t, 224> word)
{
	repair_report report{};
	if (!word.data())
		return invalid::count;
	report.outcome = um::repaired(um_repair(word.data(), &report));
	return report.outcome == um::repaired::nobits ? checked<repair_report>(invalid::bit) : report;
}

// Access and synchronisation bursts

struct access_report : um_access_report {
	std::optional<std::array<std::uint8_t, 8>> data() const { return accepted ? std::optional(copy_of(info)) : std::nullopt; }
};

struct sync_report : um_sync_report {
	std::optional<std::array<std::uint8_t, 25>> data() const { return accepted ? std::optional(copy_of(info)) : std::nullopt; }
};

inline checked<std::array<std::uint8_t, 88>> send_access(view<std::uint8_t, 8> info, view<std::uint8_t, 6> bsic)
{
	std::array<std::uint8_t, 88> burst;
	if (!info.data() || !bsic.data())
		return invalid::count;
	if (!um_send_access(info.data(), bsic.data(), burst.data()))
		return invalid::bit;
	return burst;
}

inline checked<access_report> receive_access(view<std::int8_t, 88> soft, view<std::uint8_t, 6> bsic)
{
	if (!bsic.data())
		return invalid::count;
	if (!internal::are_bits(bsic.data(), 6))
		return invalid::bit;
	return internal::decoded<access_report>(
		soft, [&](access_report &report) { return um_receive_access(soft.data(), bsic.data(), &report); });
}

inline checked<std::array<std::uint8_t, 148>> send_sync(view<std::uint8_t, 25> info)
{
	std::array<std::uint8_t, 148> burst;
	if (!info.data())
		return invalid::count;
	if (!um_send_sync(info.data(), burst.data()))
		return invalid::bit;
	return burst;
}

inline checked<sync_report> receive_sync(view<std::int8_t, 148> soft)
{
	return internal::decoded<sync_report>(soft, [&](sync_report &report) { return um_receive_sync(soft.data(), &report); });
}

// Frames. A frame is a um_frame, whose fields are those of um.h; iteration gives its information.

struct frame : um_frame {
	um::kind type() const { return um::kind(kind); }
	const std::uint8_t *begin() const { return info; }
	const std::uint8_t *end() const { return info + count; }
	// Whether the frame awaits an answer, so that T200 starts when it goes on the air.
	bool awaits_answer() const { return kind == UM_SABM || kind == UM_DISC || kind == UM_I; }
};

inline result<frame, reading> read_frame(block_view octets, channel on = channel::sdcch)
{
	frame read{};
	if (!octets.data())
		return reading::count;
	const auto why = um::reading(um_read_frame(octets.data(), number(on), &read));
	return why == reading::frame ? result<frame, reading>(read) : why;
}

inline checked<block> write_frame(const um_frame &fields, channel on = channel::sdcch)
{
	block octets;
	if (!um_write_frame(&fields, number(on), octets.data()))
		return invalid::frame;
	return octets;
}

// The information of a frame of format B4 in a block of SACCH from a network.
inline checked<std::array<std::uint8_t, 19>> read_b4(block_view octets)
{
	std::array<std::uint8_t, 19> info{};
	if (!octets.data())
		return invalid::count;
	if (!um_read_b4(octets.data(), info.data()))
		return invalid::frame;
	return info;
}

// The block of SACCH from a network with these two layer 1 octets and a frame of format B4 with this information.
inline checked<block> write_b4(view<std::uint8_t, 2> layer1, view<std::uint8_t, 19> info)
{
	block octets;
	if (!layer1.data() || !info.data())
		return invalid::count;
	um_write_b4(layer1.data(), info.data(), octets.data());
	return octets;
}

} // namespace um

#include "um_ends.hpp"
#include "um_links.hpp"
#include "um_slots.hpp"
#include "um_traffic.hpp"
#endif
