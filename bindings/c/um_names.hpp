// um_names.hpp - the enums of um.hpp, with their words and texts. Include um.hpp.
#ifndef UM_NAMES_HPP
#define UM_NAMES_HPP
#if __cplusplus < 201703L && (!defined _MSVC_LANG || _MSVC_LANG < 201703L)
#error "um.hpp needs C++17 or later (-std=c++17); um.h works with every C++"
#endif
#include "um_more.h"
#include <cstdint>
#include <string_view>

namespace um {

enum class channel : std::uint8_t { sdcch = UM_SDCCH, sacch = UM_SACCH };
enum class role : std::uint8_t { mobile = UM_MOBILE, network = UM_NETWORK };
enum class sapi : std::uint8_t { signalling = 0, short_messages = 3 };
// how the link of SAPI 0 is opened
enum class establishment : std::uint8_t { contention = UM_BY_CONTENTION, normal = UM_NORMAL };
enum class state : std::uint8_t { idle, opening, open, closing, closed };
enum class kind : std::uint8_t { i, rr, rnr, rej, sabm, dm, ui, disc, ua };
enum class notice_kind : std::uint8_t { none, opened, got, unit, acked, oversize, closed };
enum class reason : std::uint8_t { contention, failed, refused, released };
enum class fault : std::uint8_t { none, nr, ua, dm };
enum class answer : std::uint8_t { ok, notidle, notopen, notrunning, empty, toolong, full, noend, nocall, noframe, free, count = 255 };
enum class reading : std::uint8_t { frame, lpd, ea, control, el, length, empty, more, nochannel, count = 255 };
enum class repaired : std::uint8_t { holds, repaired, norepair, nobits };
enum class combination : std::uint8_t { bcch_ccch, bcch_ccch_sdcch4, sdcch8, tch_f, tch_h };
enum class direction : std::uint8_t { downlink, uplink };
enum class carried : std::uint8_t { sdcch, sacch, bcch, ccch, fcch, sch, rach, facch };
enum class placing : std::uint8_t { placed, unplaced, noplace };
enum class taken : std::uint8_t { taken, block, nosoft, noslot, noframe, doubled, late, hardbits = 254, count = 255 };
enum class traffic_channel : std::uint8_t { full_rate, half_rate_0, half_rate_1 };
enum class traffic_kind : std::uint8_t { sacch, facch, stolen, speech };
enum class heard : std::uint8_t { taken, block, earlier, nosoft, notraffic, noframe, doubled, late, hardbits = 254, count = 255 };
enum class sending : std::uint8_t { burst, nothing, unplaced, nosender, noframe, late };
enum class invalid : std::uint8_t {
	none, training_sequence, soft_value, hard_bits, words, bit, frame, ratio, erasures, frame_number, time, bsic, sch, timeslot, channel, count
};

template <class Enum> constexpr std::uint8_t number(Enum value) { return static_cast<std::uint8_t>(value); }

inline std::string_view name(channel value) { return um_channel_name(number(value)); }
inline std::string_view name(role value) { return um_role_name(number(value)); }
inline std::string_view name(establishment value) { return um_establishment_name(number(value)); }
inline std::string_view name(state value) { return um_state_name(number(value)); }
inline std::string_view name(kind value) { return um_kind_name(number(value)); }
inline std::string_view name(notice_kind value) { return um_notice_name(number(value)); }
inline std::string_view name(reason value) { return um_reason_name(number(value)); }
inline std::string_view name(fault value) { return um_fault_name(number(value)); }
inline std::string_view name(answer value) { return value == answer::count ? "count" : um_answer_name(number(value)); }
inline std::string_view name(reading value) { return value == reading::count ? "count" : um_reading_name(number(value)); }
inline std::string_view name(repaired value) { return um_repaired_name(number(value)); }
inline std::string_view name(combination value) { return um_combination_name(number(value)); }
inline std::string_view name(direction value) { return um_direction_name(number(value)); }
inline std::string_view name(carried value) { return um_channel_name(number(value)); }
inline std::string_view name(placing value) { return um_placing_name(number(value)); }
inline std::string_view name(traffic_channel value) { return um_traffic_channel_name(number(value)); }
inline std::string_view name(traffic_kind value) { return um_traffic_kind_name(number(value)); }
inline std::string_view name(heard value)
{
	return value == heard::hardbits ? "hardbits" : value == heard::count ? "count" : um_heard_name(number(value));
}
inline std::string_view name(sending value) { return um_sending_name(number(value)); }
inline std::string_view name(taken value)
{
	return value == taken::hardbits ? "hardbits" : value == taken::count ? "count" : um_taken_name(number(value));
}

constexpr std::string_view text(invalid why)
{
	switch (why) {
	case invalid::none: return "nothing is invalid";
	case invalid::training_sequence: return "a training sequence above 7; expected 0 to 7";
	case invalid::soft_value: return "a soft bit of -128; expected -127 to 127";
	case invalid::hard_bits: return "each value is 0 or 1, so these are hard bits; soft_from_bits makes soft bits of them";
	case invalid::words: return "an invalid number of words; expected 1 to 64";
	case invalid::bit: return "an octet above 1; expected bits, 0 or 1";
	case invalid::frame: return "the fields describe no LAPDm frame that fits the channel";
	case invalid::ratio: return "a ratio that is not a number, or a scale of 0 or without end";
	case invalid::erasures: return "an invalid number of erasures; expected 0 to 4";
	case invalid::frame_number: return "an invalid frame number; expected 0 to 2715647";
	case invalid::time: return "an invalid time; expected T1 up to 2047, T2 up to 25 and T3 up to 50";
	case invalid::bsic: return "an invalid base station identity code; expected 0 to 63";
	case invalid::sch: return "no synchronisation burst has this frame number or these bits; expected a T3 of 1, 11, 21, 31 or 41";
	case invalid::timeslot: return "an invalid time slot; expected 0 to 7";
	case invalid::channel: return "the combination has no such channel in this direction";
	case invalid::count: return "another number of values than the call reads";
	}
	return "unknown";
}

constexpr std::string_view text(heard why)
{
	switch (why) {
	case heard::taken: return "the frame was taken";
	case heard::block: return "the frame was taken, and a block is complete";
	case heard::earlier: return "a block ended before the frame, which is not taken yet";
	case heard::nosoft: return text(invalid::soft_value);
	case heard::notraffic: return "the state is not valid";
	case heard::noframe: return text(invalid::frame_number);
	case heard::doubled: return "this frame was taken last; expected a later one";
	case heard::late: return "this frame is before the one taken last; expected a later one";
	case heard::hardbits: return text(invalid::hard_bits);
	case heard::count: return text(invalid::count);
	}
	return "unknown";
}

constexpr std::string_view text(sending why)
{
	switch (why) {
	case sending::burst: return "the burst is written";
	case sending::nothing: return "no block has a half in the burst: nothing is to be sent";
	case sending::unplaced: return "the frame is none of the traffic channel";
	case sending::nosender: return "the state is not valid";
	case sending::noframe: return text(invalid::frame_number);
	case sending::late: return "this frame is before those that are being sent; expected a later one";
	}
	return "unknown";
}

constexpr std::string_view text(taken why)
{
	switch (why) {
	case taken::taken: return "the frame was taken";
	case taken::block: return "the frame was taken, and a block is complete";
	case taken::nosoft: return text(invalid::soft_value);
	case taken::noslot: return "the state is not valid";
	case taken::noframe: return text(invalid::frame_number);
	case taken::doubled: return "this frame was taken last; expected a later one";
	case taken::late: return "this frame is before the one taken last; expected a later one";
	case taken::hardbits: return text(invalid::hard_bits);
	case taken::count: return text(invalid::count);
	}
	return "unknown";
}

constexpr std::string_view text(answer why)
{
	switch (why) {
	case answer::ok: return "the call was accepted";
	case answer::notidle: return "the link was opened already, or is being opened or released";
	case answer::notopen: return "the link is not open";
	case answer::notrunning: return "no frame awaits an answer";
	case answer::empty: return "the message is empty; expected at least one octet";
	case answer::toolong: return "the message is too long; send takes at most 251 octets, open and unit 20 (18 on SACCH)";
	case answer::full: return "eight messages are not completely acknowledged yet";
	case answer::noend: return "the state is not valid";
	case answer::nocall:
		return "the mobile opens the link of SAPI 0 with open, unless it is of normal establishment; either end opens SAPI 3 with open_bare, "
		       "and either side of a data link both with establish";
	case answer::noframe: return "the octets are not an LAPDm frame";
	case answer::free: return "nothing is to be sent in this slot";
	case answer::count: return text(invalid::count);
	}
	return "unknown";
}

constexpr std::string_view text(reading why)
{
	switch (why) {
	case reading::frame: return "an LAPDm frame";
	case reading::lpd: return "not an LAPDm frame: another link protocol";
	case reading::ea: return "not an LAPDm frame: the address field continues (EA is 0)";
	case reading::control: return "not an LAPDm frame: undefined control octet";
	case reading::el: return "not an LAPDm frame: the length field continues (EL is 0)";
	case reading::length: return "not an LAPDm frame: more information than fits, or than the kind carries";
	case reading::empty: return "not an LAPDm frame: an I frame without information";
	case reading::more: return "not an LAPDm frame: M is set in a frame other than I";
	case reading::nochannel: return "no such channel";
	case reading::count: return text(invalid::count);
	}
	return "unknown";
}

} // namespace um
#endif
