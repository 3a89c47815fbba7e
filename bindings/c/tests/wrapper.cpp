// Tests um.hpp: each call on the repository's vectors, which libosmocoding made, what each refuses, and a session of both links.
//
//   wrapper CODE.IN CODE.OUT
#include "um.hpp"
#include <cstdio>
#include <fstream>
#include <set>
#include <sstream>
#include <string>
#include <vector>

static int failed;

static void check(bool holds, const char *what)
{
	if (!holds) {
		std::printf("library: %s\n", what);
		failed = 1;
	}
}

template <std::size_t Count> static std::array<std::uint8_t, Count> bits(const std::string &digits)
{
	std::array<std::uint8_t, Count> values{};
	check(digits.size() == Count, "a vector has as many digits");
	for (std::size_t i = 0; i < Count && i < digits.size(); i++)
		values[i] = static_cast<std::uint8_t>(digits[i] - '0');
	return values;
}

static um::block block_of(const std::string &hex)
{
	um::block octets{};
	for (std::size_t i = 0; i < 23; i++)
		octets[i] = static_cast<std::uint8_t>(std::stoi(hex.substr(2 * i, 2), nullptr, 16));
	return octets;
}

static std::string last_word(std::istream &lines)
{
	std::string line;
	std::getline(lines, line);
	return line.substr(line.rfind(' ') + 1);
}

static int vectors(const char *in, const char *out)
{
	std::ifstream lines(in), wanted(out);
	std::string line;
	int count = 0;
	for (; std::getline(lines, line); count++) {
		std::istringstream words(line);
		std::string form, first, second;
		words >> form >> first >> second;
		if (form == "block") {
			const auto octets = block_of(second);
			const auto sent = um::send_block(octets, static_cast<std::uint8_t>(first[0] - '0'));
			std::string digits;
			for (int burst = 0; burst < 4; burst++)
				digits += last_word(wanted);
			check(sent && *sent == bits<592>(digits), "the bursts of a block");
			const auto report = um::receive_block(um::soft_from_bits(*sent));
			check(report && report->data() == octets && report->tsc == first[0] - '0' && report->metric == 57912 && report->rank == 1, "a block");
		} else if (form == "rach") {
			const auto info = bits<8>(first);
			const auto bsic = bits<6>(second);
			const auto sent = um::send_access(info, bsic);
			check(sent && *sent == bits<88>(last_word(wanted)), "an access burst");
			const auto report = um::receive_access(um::soft_from_bits(*sent), bsic);
			check(report && report->data() == info, "an access burst is read");
		} else {
			const auto info = bits<25>(first);
			const auto sent = um::send_sync(info);
			check(sent && *sent == bits<148>(last_word(wanted)), "a synchronisation burst");
			const auto report = um::receive_sync(um::soft_from_bits(*sent));
			check(report && report->data() == info, "a synchronisation burst is read");
		}
	}
	check(count > 100 && last_word(wanted).empty(), "all vectors were read");
	return count;
}

static void refusals()
{
	um::block_soft soft{};
	check(um::send_block(um::block{}, 8).why() == um::invalid::training_sequence, "a training sequence of 8");
	check(um::receive_block_among(soft, 0).why() == um::invalid::words, "no words");
	check(um::receive_block_among(soft, 65).why() == um::invalid::words, "65 words");
	check(um::receive_block(soft) && !um::receive_block(soft)->data(), "a lost block is no error, and nothing is accepted");
	soft[591] = 1;
	check(um::receive_block(soft).why() == um::invalid::hard_bits && um::receive_block_among(soft, 64).why() == um::invalid::hard_bits &&
		um::margin_block(soft).why() == um::invalid::hard_bits, "hard bits");
	soft[0] = -128;
	const auto refused = um::receive_block(soft);
	check(!refused && refused.why() == um::invalid::soft_value && refused->metric == 0, "-128, with zeros");
	check(um::text(refused.why()) == "a soft bit of -128; expected -127 to 127", "its text");
	std::array<std::uint8_t, 224> word{};
	word[0] = 2;
	check(um::repair(word).why() == um::invalid::bit, "2 is no bit");
	const std::array<std::uint8_t, 6> bsic{2};
	check(um::send_access(std::array<std::uint8_t, 8>{}, bsic).why() == um::invalid::bit, "a BSIC of 2");
	std::array<std::int8_t, 88> access{};
	check(um::receive_access(access, bsic).why() == um::invalid::bit, "a BSIC of 2");
	access[87] = 1;
	check(um::receive_access(access, std::array<std::uint8_t, 6>{}).why() == um::invalid::hard_bits, "hard bits of an access burst");
	access[87] = -128;
	check(um::receive_access(access, std::array<std::uint8_t, 6>{}).why() == um::invalid::soft_value, "-128 in an access burst");
	std::array<std::int8_t, 148> sync{};
	sync[147] = 1;
	check(um::receive_sync(sync).why() == um::invalid::hard_bits, "hard bits of a synchronisation burst");
	check(um::send_sync(std::array<std::uint8_t, 25>{3}).why() == um::invalid::bit, "3 is no bit");
	um_frame fields{};
	check(um::write_frame(fields).why() == um::invalid::frame, "an I frame without information");
	const auto unread = um::read_frame(um::block{});
	check(!unread && um::name(unread.why()) == "ea" && um::text(unread.why()).find("EA is 0") != std::string_view::npos, "not a frame");
	std::array<std::uint8_t, 19> si6{0x2d, 0x06, 0x1e}; // system information 6, whose L2 pseudo length is 11
	const um::block b4 = *um::write_b4(std::array<std::uint8_t, 2>{5, 3}, si6);
	check(b4[0] == 5 && b4[1] == 3 && b4[2] == 3 && b4[3] == 3 && b4[4] == 0x2d && *um::read_b4(b4) == si6, "a frame of format B4");
	check(um::read_b4(um::block{}).why() == um::invalid::frame, "no frame of format B4");
}

// all ways to pass soft bits: the same report
static void views()
{
	const auto flat = um::soft_from_bits(*um::send_block(um::block{1, 3, 1, 43}, 5));
	std::array<std::array<std::int8_t, 148>, 4> rows{};
	std::int8_t plain[592], plain_rows[4][148];
	for (std::size_t i = 0; i < 592; i++)
		rows[i / 148][i % 148] = plain[i] = plain_rows[i / 148][i % 148] = flat[i];
	const std::vector<std::int8_t> many(flat.begin(), flat.end());
	const auto wanted = um::receive_block(flat)->data();
	check(wanted && (*wanted)[3] == 43, "a block");
	check(um::receive_block(rows)->data() == wanted && um::receive_block(plain)->data() == wanted, "rows and C arrays");
	check(um::receive_block(plain_rows)->data() == wanted, "rows of a C array");
	const auto view = um::soft_view::of(many.data(), many.size());
	check(view && um::receive_block(*view)->data() == wanted && !um::soft_view::of(many.data(), 591), "a vector, and one that is too short");
	check(um::receive_block(many)->data() == wanted, "a vector");
#if defined __cpp_lib_span
	check(um::receive_block(std::span<const std::int8_t>(many))->data() == wanted && um::receive_block(std::span(many))->data() == wanted,
		"spans of a size known at run time");
	check(um::receive_block(std::span(many).first(591)).why() == um::invalid::count, "a span that is too short");
	check(um::receive_block(std::span<const std::int8_t, 592>(flat))->data() == wanted, "a span");
	check(um::receive_block(std::span(many).first<592>())->data() == wanted, "a span of a vector");
#endif
	auto damaged = flat;
	damaged[158] = static_cast<std::int8_t>(-damaged[158]);
	check(um::receive_block_among(damaged, 64)->rank == 1 && um::receive_block(damaged)->wrong_coded == 1, "a wrong bit");
	check(um::margin_block(flat)->margin == 7 * 254, "the next word differs in seven coded bits");
	const auto block = *um::send_block(um::block{1, 3, 1, 43}, 5);
	const auto full = um::steal_facch_f(block, um::burst_bits_f{});
	const auto half = um::steal_facch_h(block, um::burst_bits_h{});
	check(full && half && *um::join_facch_f(um::soft_from_bits(*full)) == flat && *um::join_facch_h(um::soft_from_bits(*half)) == flat,
		"a block of FACCH is joined as it was written");
	check(um::stealing_flags(flat)->sum == -1016 && um::stealing_flags(flat)->wrong == 0, "eight stealing flags");
	check(um::steal_facch_f(block, um::burst_bits_f{2}).why() == um::invalid::bit
		&& um::steal_facch_h(um::block_bits{2}, um::burst_bits_h{}).why() == um::invalid::bit, "2 is no bit");
	check(um::join_facch_f(std::array<std::int8_t, 1184>{-128}).why() == um::invalid::soft_value
		&& um::join_facch_h(std::array<std::int8_t, 888>{-128}).why() == um::invalid::soft_value, "-128 in bursts of FACCH");
	std::array<std::uint8_t, 224> word{};
	for (std::size_t i = 184; i < 224; i++)
		word[i] = 1; // the CRC of zeros
	check(um::repair(word)->outcome == um::repaired::holds, "a codeword");
	word[184] = word[195] = 0;
	const auto repaired = um::repair(word);
	check(repaired->outcome == um::repaired::repaired && repaired->first == 184 && repaired->span == 12, "a burst of twelve places");
	check(um::name(repaired->outcome) == "repaired", "its word");
}

// what each call answers to another number of values than it reads
static void counts()
{
	const std::vector<std::int8_t> soft(591);
	const std::vector<std::uint8_t> octets(22), none;
	const auto count = um::invalid::count;
	check(um::text(count) == "another number of values than the call reads" && um::name(um::taken::count) == "count" &&
		um::text(um::answer::count) == um::text(count) && um::text(um::reading::count) == um::text(count), "its text");
	check(um::receive_block(soft).why() == count && um::receive_block_among(soft, 4).why() == count && um::margin_block(soft).why() == count &&
		um::receive_block_erasing(soft, 4, 4).why() == count && um::detect_training(soft).why() == count, "591 soft bits");
	check(um::send_block(octets, 1).why() == count && um::repair(octets).why() == count && um::receive_sync(soft).why() == count &&
		um::send_sync(octets).why() == count && um::read_sch(octets).why() == count && um::read_ra(octets).why() == count &&
		um::read_bsic(octets).why() == count, "22 octets");
	const std::array<std::uint8_t, 6> bsic{};
	const std::array<std::uint8_t, 8> info{};
	check(um::send_access(none, bsic).why() == count && um::send_access(info, none).why() == count &&
		um::receive_access(soft, bsic).why() == count && um::receive_access(std::array<std::int8_t, 88>{}, none).why() == count, "access bursts");
	check(um::read_frame(octets).why() == um::reading::count, "a frame");
	check(um::read_b4(octets).why() == um::invalid::count, "a frame of format B4");
	um::slot slot(um::combination::sdcch8);
	um::end end(um::role::mobile);
	um::side side(um::role::mobile);
	um::datalink link(um::role::mobile);
	check(slot.take(0, soft).why() == um::taken::count && end.take(octets).why() == um::answer::count &&
		side.take(octets).why() == um::answer::count && link.take(octets).why() == um::answer::count, "what arrives");
	check(!um::slot::from_bytes(octets) && !um::end::from_bytes(octets) && !um::side::from_bytes(octets) && !um::datalink::from_bytes(octets),
		"saved states");
	// where the size is part of the type, the compiler tests it
	static_assert(!std::is_convertible_v<std::array<std::int8_t, 591>, um::soft_view> && std::is_convertible_v<um::block_soft, um::soft_view>);
#if defined __cpp_lib_span
	static_assert(!std::is_convertible_v<std::span<const std::int8_t, 591>, um::soft_view>);
#endif
}

// passes all blocks between two sides until none is left
static void settle(um::side &from, um::side &to, const um::effects &effects, std::vector<std::string> &said)
{
	for (const um::notice notice : effects.notices())
		said.push_back(std::string(um::name(from.end(um::sapi::signalling).role())) + " " +
			std::to_string(um::number(effects.sapi())) + " " + std::string(um::name(notice.kind)) + " " + std::to_string(notice.count));
	for (const um::block &octets : effects.frames())
		settle(to, from, to.take(octets), said);
}

static void session()
{
	um::side mobile(um::role::mobile), network(um::role::network, um::channel::sdcch);
	std::vector<std::string> said;
	settle(mobile, network, mobile.open({5, 36}), said);
	settle(network, mobile, network.open_bare(), said);
	settle(mobile, network, mobile.send(um::sapi::signalling, std::vector<std::uint8_t>(60, 7)), said);
	settle(network, mobile, network.unit(um::sapi::short_messages, {1}), said);
	const auto lost = mobile.send(um::sapi::signalling, {9});
	check(lost && mobile.timer_runs(um::sapi::signalling) && !mobile.timer_runs(um::sapi::short_messages), "T200 of one link runs");
	const auto saved = mobile.to_bytes();
	auto restored = um::side::from_bytes(saved);
	check(restored && restored->to_bytes() == saved && restored->timer_runs(um::sapi::signalling), "a side is restored");
	settle(mobile, network, restored->timer(um::sapi::signalling), said);
	settle(mobile, network, mobile.close(um::sapi::signalling), said);
	// from the frames of 3GPP TS 44.006: the network opens on the SABM, the mobile on the UA; acknowledged after it was got
	const std::vector<std::string> wanted{"network 0 opened 2", "mobile 0 opened 2", "mobile 3 opened 0", "network 3 opened 0",
		"network 0 got 60", "mobile 0 acked 0", "mobile 3 unit 1", "network 0 got 1", "mobile 0 acked 0", "network 0 closed 0",
		"mobile 0 closed 0"};
	check(said == wanted, "what both sides report");
	for (const auto &line : said)
		if (said != wanted)
			std::printf("  %s\n", line.c_str());
	const auto again = mobile.open({1});
	check(!again && again.why() == um::answer::notidle && um::name(again.why()) == "notidle", "a link opens once");
	check(again.frames().empty() && again.notices().size() == 0, "a refusal has no effects");
	check(mobile.send(um::sapi::short_messages, std::vector<std::uint8_t>(1000)).why() == um::answer::toolong, "a long message");
	check(mobile.take(um::block{}).why() == um::answer::noframe, "octets that are no frame");
}

static void ends()
{
	um::end mobile(um::role::mobile, um::sapi::short_messages, um::channel::sacch);
	check(mobile.role() == um::role::mobile && mobile.sapi() == um::sapi::short_messages && mobile.channel() == um::channel::sacch &&
		mobile.state() == um::state::idle && um::name(mobile.channel()) == "sacch", "the fields of an endpoint");
	const auto before = mobile;
	const auto asked = mobile.open_bare();
	check(asked.frames().size() == 1 && mobile.state() == um::state::opening && before.state() == um::state::idle, "a copy is independent");
	const auto read = um::read_frame(asked.frames()[0], um::channel::sacch);
	check(read && read->type() == um::kind::sabm && read->awaits_answer() && read->begin() == read->end(), "a SABM");
	check(um::write_frame(*read, um::channel::sacch) && *um::write_frame(*read, um::channel::sacch) == asked.frames()[0], "written again");
	auto saved = mobile.to_bytes();
	check(um::end::from_bytes(saved) && um::end::from_bytes(saved)->to_bytes() == saved, "an endpoint is restored");
	saved[3] = '2';
	check(!um::end::from_bytes(saved), "another version");
	um::end none(static_cast<um::role>(7));
	check(none.open({1}).why() == um::answer::noend, "no such role");
	um::side neither(um::role::mobile, static_cast<um::channel>(9));
	check(neither.open({1}).why() == um::answer::noend, "no such channel");
}

// A block of FACCH/F in frames 0 to 7 of the uplink, with a gap after it; ciphering.
static void traffic()
{
	const auto bits = *um::send_block(um::block{3, 3, 1, 43}, 4);
	const auto sent = um::soft_from_bits(bits);
	const auto up = um::direction::uplink;
	const auto place = um::place_traffic(um::traffic_channel::half_rate_0, um::direction::downlink, 15);
	check(place && place->burst == 7 && !place->begins && place->ends == std::uint8_t{0}, "block 0 of the downlink ends in frame 15");
	check(um::place_traffic(um::traffic_channel::full_rate, up, 12).why() == um::placing::unplaced &&
		*um::next_facch(um::traffic_channel::full_rate, up, 9) == 13 &&
		um::next_facch(um::traffic_channel::full_rate, up, um::frames).why() == um::invalid::frame_number, "frame 12 is of SACCH");
	um::traffic traffic(um::traffic_channel::full_rate, up, 2, 16, 4);
	traffic.limit(18);
	std::array<std::int8_t, 148> burst;
	for (std::uint32_t frame = 0; frame < 8; frame++) {
		for (std::size_t i = 0; i < 148; i++)
			burst[i] = sent[frame % 4 * 148 + i];
		const auto answer = traffic.take(frame, burst);
		check(answer && answer.size() == (frame % 4 == 3), "each fourth frame completes a block");
		for (const auto &block : answer)
			check(block.block.first != 0 || (block.what() == um::traffic_kind::facch && block.data() == um::block{3, 3, 1, 43}), "FACCH");
	}
	check(um::name(um::heard::earlier) == "earlier" && traffic.take(7, burst).why() == um::heard::doubled, "a frame doubled");
	const auto gap = traffic.take(100, burst);
	check(gap && gap.size() == 1 && gap.begin()->block.first == 4 && gap.begin()->block.heard == 4, "a block that lacks its last bursts");
	const auto last = traffic.end();
	check(last && last.size() == 2 && traffic.end().size() == 0, "the burst in frame 100 was of two blocks");
	check(traffic.restart() && traffic.limit() == 18 && traffic.channel() == um::traffic_channel::full_rate && traffic.miss(3), "begun again");
	burst.fill(0);
	burst[8] = 1;
	um::traffic hard(um::traffic_channel::full_rate, up);
	check(hard.take(0, burst) && hard.take(1, burst) && hard.take(2, burst) && hard.take(3, burst).why() == um::heard::hardbits, "hard bits");
	auto carried = um::soft_from_bits(*um::steal_facch_f(bits, um::burst_bits_f{}));
	for (std::size_t i = 0; i < carried.size(); i++)
		carried[i] = static_cast<std::int8_t>(i / 148 == 2 ? -carried[i] : carried[i] / 2);
	const auto saved = um::receive_facch_f_erasing(carried, 1, 8);
	check(saved && saved->data() == um::block{3, 3, 1, 43} && saved->erased() == std::uint8_t{2} && saved->erasure.wrong_training[2] == 26,
		"the third of eight bursts is inverted and stronger, and erased");
	check(!um::receive_facch_f_erasing(carried, 1, 0)->data() && um::receive_facch_f_erasing(carried, 1, 9).why() == um::invalid::erasures &&
		um::receive_facch_f_erasing(carried, 65, 0).why() == um::invalid::words, "without erasures, and refusals");
	um::slot half(um::combination::tch_h, um::direction::downlink, 1);
	check(half.take(25, burst).why() == um::taken::noslot, "a slot has no half rate");
	um::traffic none(um::traffic_channel::full_rate, up, 8);
	check(none.miss(0).why() == um::heard::notraffic, "no such time slot");
	const auto kept = um::traffic::from_bytes(traffic.to_bytes());
	check(kept && kept->to_bytes() == traffic.to_bytes() && !um::traffic::from_bytes(none.to_bytes()), "a receiver is saved and restored");

	um::traffic_sender sender(um::traffic_channel::full_rate, up, 4);
	const um::block message{3, 3, 1, 43};
	check(*sender.speech(bits) && sender.facch(message) && !sender.facch(message) && !*sender.speech(bits), "FACCH before speech");
	check(sender.burst(3).why() == um::sending::nothing && sender.burst(12).why() == um::sending::unplaced &&
		um::text(um::sending::unplaced) == "the frame is none of the traffic channel", "frame 3 begins no block, and frame 12 is of SACCH");
	auto restored = um::traffic_sender::from_bytes(sender.to_bytes());
	um::traffic hears(um::traffic_channel::full_rate, up);
	std::size_t found = 0;
	for (std::uint32_t frame = 4; frame < 12 && restored; frame++) {
		const auto made = restored->burst(frame);
		check(made && um::soft_from_bits(*made)[70] == um::soft_from_bits(*made)[70], "a burst of each frame");
		for (const auto &block : hears.take(frame, um::soft_from_bits(*made)))
			found += block.block.first == 4 && block.data() == um::block{3, 3, 1, 43};
	}
	check(found == 1 && restored && restored->burst(0).why() == um::sending::late && um::name(um::sending::late) == "late", "it is received");
	um::traffic_sender mute(um::traffic_channel::full_rate, up, 8);
	check(mute.burst(0).why() == um::sending::nosender && !um::traffic_sender::from_bytes(mute.to_bytes()), "no training sequence 8");

	std::array<std::uint8_t, 114> stream{};
	stream[0] = stream[113] = 1;
	std::array<std::uint8_t, 148> first;
	for (std::size_t i = 0; i < 148; i++)
		first[i] = bits[i];
	const auto ciphered = um::cipher_bits(first, stream);
	check(ciphered && (*ciphered)[3] != first[3] && (*ciphered)[144] != first[144] && (*ciphered)[60] == first[60], "two bits are inverted");
	burst.fill(5);
	const auto deciphered = um::soft_cipher(burst, stream);
	check(deciphered && (*deciphered)[3] == -5 && (*deciphered)[144] == -5 && (*deciphered)[2] == 5, "two signs change");
	stream[5] = 2;
	check(um::soft_cipher(burst, stream).why() == um::invalid::bit && um::cipher_bits(first, stream).why() == um::invalid::bit, "no stream");
	um::slot slot(um::combination::tch_f, um::direction::downlink, 1);
	slot.limit(18);
	check(slot.take(25, burst) && slot.end().why() == um::taken::block && slot.end().why() == um::taken::taken && slot.restart() &&
		slot.limit() == 18, "a slot is ended and begun again");
}

// SDCCH/8, subchannel 2, in frames 8 to 11 of 51 (3GPP TS 45.002, 7)
static void slots()
{
	const auto sent = um::soft_from_bits(*um::send_block(um::block{1, 2, 3}, 5));
	std::array<std::array<std::int8_t, 148>, 4> soft;
	for (std::size_t i = 0; i < 592; i++)
		soft[i / 148][i % 148] = sent[i];
	const auto down = um::direction::downlink;
	const auto place = um::place_frame(um::combination::sdcch8, down, 3, 520);
	check(place && place->first == 518 && um::name(place->channel) == "sdcch" && place->subchannel == 2 && place->burst == 2, "a place");
	check(um::place_frame(um::combination::sdcch8, down, 3, 509).why() == um::placing::unplaced &&
		um::place_frame(um::combination::sdcch8, down, 8, 0).why() == um::placing::noplace, "an idle frame, and no such time slot");
	check(*um::next_block(um::combination::sdcch8, down, 3, um::carried::sdcch, 2, 511) == 518 &&
		um::next_block(um::combination::sdcch8, down, 3, um::carried::bcch, 0, 0).why() == um::invalid::channel, "the next block");
	um::slot slot(um::combination::sdcch8, down, 3, 64, 1);
	for (std::uint32_t i = 0; i < 3; i++) {
		const auto answer = slot.take(518 + i, soft[i]);
		check(answer && !answer.block(), "three bursts are no block");
	}
	const auto saved = slot.to_bytes();
	check(um::slot::from_bytes(saved) && um::slot::from_bytes(saved)->to_bytes() == saved, "a receiver is restored");
	const auto done = slot.take(521, soft[3]);
	check(done.block() && done.block()->data() == um::block{1, 2, 3} && done.block()->on() == um::carried::sdcch && !done.block()->erased() &&
		done.block()->heard == 4, "the fourth burst makes a block");
	check(slot.take(521, soft[0]).why() == um::taken::doubled && slot.take(520, soft[0]).why() == um::taken::late &&
		slot.take(um::frames, soft[0]).why() == um::taken::noframe, "refusals");
	std::array<std::int8_t, 148> hard{};
	hard[5] = 1;
	for (std::uint32_t i = 522; i < 525; i++)
		check(bool(slot.take(i, hard)), "bursts of hard bits are not tested one by one");
	const auto before = slot.to_bytes();
	const auto refused = slot.take(525, hard);
	check(refused.why() == um::taken::hardbits && um::text(refused.why()).find("hard bits") != std::string_view::npos &&
		slot.to_bytes() == before, "a block of hard bits is refused with its fourth burst");
	hard[0] = -128;
	check(slot.miss(525).why() == um::taken::block && slot.take(526, hard).why() == um::taken::nosoft, "a burst that never came; -128");
	um::slot none(um::combination::sdcch8, down, 9);
	check(none.miss(0).why() == um::taken::noslot, "no such time slot");

	auto damaged = um::soft_from_sbits(sent);
	const auto other = um::soft_from_bits(*um::send_block(um::block{0x5a, 0x5a}, 2));
	for (std::size_t i = 0; i < 592; i++)
		damaged[i] = i / 148 == 2 ? other[i] : static_cast<std::int8_t>(damaged[i] / 2);
	const auto erasing = um::receive_block_erasing(damaged, 1, 4);
	check(!um::receive_block(damaged)->data() && erasing->data() == um::block{1, 2, 3} && erasing->erased() == std::uint8_t{2},
		"a burst is erased");
	const auto training = um::detect_training(damaged);
	check(training && training->tsc == 5 && training->wrong[0] == 0 && training->wrong[2] > 0, "the training sequence");
	check(um::receive_block_erasing(damaged, 1, 5).why() == um::invalid::erasures, "five erasures");

	// 1000009 = 754 * 1326 + 205: T2 is 205 % 26, T3 is 205 % 51
	const auto time = um::time_of_frame(1000009);
	check(time && time->t1 == 754 && time->t2 == 23 && time->t3 == 1 && *um::frame_of_time(*time) == 1000009, "T1, T2 and T3");
	check(um::time_of_frame(um::frames).why() == um::invalid::frame_number, "no frame number");
	check(um::frame_of_time({2048, 0, 0}).why() == um::invalid::time, "no time");
	const auto sch = um::read_sch(*um::write_sch(42, 1000009));
	check(sch && sch->frame == 1000009 && sch->ncc == 5 && sch->bcc == 2, "the bits of SCH");
	check(um::write_sch(64, 1).why() == um::invalid::bsic && um::write_sch(0, 2).why() == um::invalid::sch, "no such BSIC; no SCH");
	check(*um::read_ra(um::write_ra(0x13)) == 0x13 && um::write_ra(0x13)[0] == 1 && um::write_ra(0x13)[7] == 0, "RA");
	check(*um::read_bsic(*um::write_bsic(33)) == 33 && um::write_bsic(64).why() == um::invalid::bsic, "a BSIC");
	const auto ratios = um::soft_from_llr(std::array<float, 4>{0.5f, 1.5f, -300, 2.5f}, 1);
	check(ratios && *ratios == std::array<std::int8_t, 4>{0, 2, -127, 2}, "ratios, halves to even");
	check(um::soft_from_llr(std::array<float, 1>{1}, 0).why() == um::invalid::ratio, "a scale of 0");
	check(um::soft_from_trx(std::array<std::uint8_t, 3>{0, 128, 255}) == std::array<std::int8_t, 3>{127, -1, -127}, "TRX protocol");
}

// Of a block one burst came, all 0 but a single 1. The next block ends it, and each burst of it is taken.
static void nearly_lost()
{
	const auto sent = um::soft_from_bits(*um::send_block(um::block{1, 2, 3}, 5));
	std::array<std::int8_t, 148> burst{};
	burst[70] = 1;
	um::slot slot(um::combination::sdcch8, um::direction::downlink, 3);
	check(bool(slot.take(518, burst)), "the burst that is nearly lost");
	for (std::uint32_t i = 0; i < 4; i++) {
		std::memcpy(burst.data(), sent.data() + 148 * i, 148);
		const auto answer = slot.take(522 + i, burst);
		check(bool(answer) && bool(answer.block()) == (i == 0 || i == 3), "the bursts of the next block");
		check(i != 0 || (answer.block() && answer.block()->first == 518 && answer.block()->heard == 1 && !answer.block()->data()),
			"the block before");
		check(i != 3 || (answer.block() && answer.block()->first == 522 && answer.block()->data() == um::block{1, 2, 3}), "the next block");
	}
}

// a session of data links without loss, as in the tests of um_datalink
static void links()
{
	um::datalink mobile(um::role::mobile), network(um::role::network);
	std::vector<std::string> said;
	check(mobile.send(um::sapi::signalling, {1}) == um::answer::notopen && network.open({1}) == um::answer::nocall, "refusals");
	check(mobile.take(um::block{}).why() == um::answer::noframe && mobile.open({5, 36}) == um::answer::ok, "the mobile opens");
	for (int slot = 0; slot < 40; slot++) {
		const auto up = mobile.next(), down = network.next();
		for (const auto *sent : {&up, &down}) {
			auto &to = sent == &up ? network : mobile;
			const auto report = to.take(sent->block);
			for (const um::link_notice notice : report.notices()) {
				const bool is_answer_due = notice.kind == um::notice_kind::closed && to.role() == um::role::network;
				check(!is_answer_due || !to.idle(), "the answer to a release waits for its slot");
				said.push_back(std::string(um::name(to.role())) + " " + std::to_string(um::number(notice.sapi)) + " " +
					std::string(um::name(notice.kind)) + " " + std::to_string(notice.count));
			}
		}
		if (slot == 5)
			check(mobile.send(um::sapi::signalling, std::vector<std::uint8_t>(60, 7)) == um::answer::ok, "a message");
		if (slot == 12)
			check(mobile.close(um::sapi::signalling) == um::answer::ok, "the mobile closes");
	}
	const std::vector<std::string> wanted{"network 0 opened 2", "mobile 0 opened 2", "network 0 got 60", "mobile 0 acked 0",
		"network 0 closed 0", "mobile 0 closed 0"};
	check(said == wanted && mobile.state(um::sapi::signalling) == um::state::closed, "what both data links report");
	const auto idle = mobile.next();
	check(mobile.idle() && !um::datalink(um::role::mobile, um::channel::sdcch, 0).idle(), "idle");
	check(idle.is_free && idle.report && idle.report.notices().size() == 0 && um::name(idle.report.why()) == "free", "a free slot");
	check(mobile.unit(um::sapi::signalling, {9}) && mobile.unit(um::sapi::signalling, {}).why() == um::answer::empty, "a UI frame");
	const auto saved = mobile.to_bytes();
	check(um::datalink::from_bytes(saved) && um::datalink::from_bytes(saved)->to_bytes() == saved, "a data link is restored");
	auto older = saved;
	older[3] = '1';
	check(!um::datalink::from_bytes(older), "the form without what was heard is refused");
	um::datalink none(um::role::mobile, um::channel::sdcch, 0);
	check(none.open({1}) == um::answer::noend && !none.next().report, "no T200");
}

// some slots, in which the network's blocks may be lost; what each side reports, in order of the alphabet
using words = std::set<std::string>;
static std::array<words, 2> told(std::array<um::datalink, 2> &sides, std::array<std::optional<um::block>, 2> &air, int count, bool lost)
{
	std::array<words, 2> said;
	for (int slot = 0; slot < count; slot++) {
		const auto arrived = air;
		for (std::size_t who = 0; who < 2; who++) {
			if (!arrived[1 - who])
				continue;
			const auto report = sides[who].take(*arrived[1 - who]);
			for (const um::link_notice notice : report.notices()) {
				const bool got = notice.kind == um::notice_kind::got;
				said[who].insert(std::string(um::name(notice.kind)) + (got ? std::string(1, static_cast<char>(notice.octets[0])) : ""));
			}
		}
		for (std::size_t who = 0; who < 2; who++) {
			const auto sent = sides[who].next();
			for (const um::link_notice notice : sent.report.notices())
				said[who].insert(std::string(um::name(notice.kind)));
			air[who] = lost && who == 1 ? std::nullopt : std::optional(sent.block);
		}
	}
	return said;
}

// a link that is open at the other side is opened again: a new opening at both sides
static void opened_again()
{
	using both = std::array<words, 2>;
	using ends = std::array<um::datalink, 2>;
	const auto sapi0 = um::sapi::signalling, sapi3 = um::sapi::short_messages;
	ends sides{um::datalink(um::role::mobile, um::channel::sacch, 4, 6), um::datalink(um::role::network, um::channel::sacch, 4, 6)};
	std::array<std::optional<um::block>, 2> air;
	check(sides[0].main(true) == um::answer::ok && sides[0].open_bare() == um::answer::ok, "SAPI 3");
	check(told(sides, air, 4, false) == both{words{"opened"}, words{"opened"}}, "it opens");
	check(sides[0].send(sapi3, {'A'}) == um::answer::ok, "A");
	check(told(sides, air, 40, true) == both{words{"closed"}, words{"gotA"}}, "the answers are lost");
	check(sides[0].open_bare() == um::answer::ok && told(sides, air, 3, false) == both{words{"opened"}, words{"opened"}}, "again");
	check(sides[0].send(sapi3, {'B'}) == um::answer::ok && sides[1].send(sapi3, {'C'}) == um::answer::ok, "B, C");
	check(told(sides, air, 10, false) == both{words{"acked", "gotC"}, words{"acked", "gotB"}}, "each is delivered");
	sides = ends{um::datalink(um::role::mobile, um::channel::sdcch, 2), um::datalink(um::role::network, um::channel::sdcch, 2)};
	air = {};
	check(sides[0].open({1, 2}) == um::answer::ok, "SAPI 0");
	check(told(sides, air, 4, false) == both{words{"opened"}, words{"opened"}}, "it opens");
	check(sides[0].send(sapi0, {'A'}) == um::answer::ok, "A");
	check(told(sides, air, 4, false) == both{words{"acked"}, words{"gotA"}}, "A is acknowledged");
	check(sides[0].close_local(sapi0) == um::answer::ok && sides[0].open({1, 2}) == um::answer::ok, "opened again");
	check(told(sides, air, 4, false) == both{words{"opened"}, words{"opened"}}, "both report a new opening");
	check(sides[0].send(sapi0, {'B'}) == um::answer::ok && sides[1].send(sapi0, {'C'}) == um::answer::ok, "B, C");
	check(told(sides, air, 6, false) == both{words{"acked", "gotC"}, words{"acked", "gotB"}}, "each is delivered");
}

// what both sides report in some slots where nothing is lost, or everything is
static std::array<words, 2> run(std::array<um::datalink, 2> &sides, int count, bool lost = false)
{
	std::array<std::optional<um::block>, 2> air;
	std::array<words, 2> said;
	for (int slot = 0; slot < count; slot++) {
		const auto now = told(sides, air, 1, false);
		air = lost ? decltype(air){} : air;
		for (std::size_t who = 0; who < 2; who++)
			said[who].insert(now[who].begin(), now[who].end());
	}
	return said;
}

// Scenes of an assignment, a handover and a return. The octets of SABM and UA are from 3GPP TS 44.006: the mobile's command and the
// network's response have C/R = 0.
static void establishments()
{
	using ends = std::array<um::datalink, 2>;
	const std::array<words, 2> opened{words{"opened"}, words{"opened"}};
	const auto zero = um::sapi::signalling;
	const auto normal = [](um::role role) { return um::datalink(role, um::channel::sdcch, um::establishment::normal, 4, 6); };
	const ends fresh{normal(um::role::mobile), normal(um::role::network)};
	using octets = std::array<std::uint8_t, 3>;
	const auto begins = [](const um::block &block, octets with) { return std::equal(with.begin(), with.end(), block.begin()); };
	const std::array<octets, 2> sabm{octets{0x01, 0x3f, 0x01}, octets{0x03, 0x3f, 0x01}};
	const std::array<octets, 2> ua{octets{0x03, 0x73, 0x01}, octets{0x01, 0x73, 0x01}};
	for (std::size_t who = 0; who < 2; who++) {
		ends sides = fresh;
		check(sides[who].establish(zero) == um::answer::ok && sides[who].state(zero) == um::state::opening, "either side opens");
		const auto asked = sides[who].next();
		check(begins(asked.block, sabm[who]) && sides[1 - who].take(asked.block), "a SABM without information");
		const auto answered = sides[1 - who].next();
		check(begins(answered.block, ua[1 - who]) && sides[who].take(answered.block), "its UA");
		check(sides[0].send(zero, {'M'}) == um::answer::ok && sides[1].send(zero, {'N'}) == um::answer::ok, "a message each way");
		check(run(sides, 6) == std::array<words, 2>{words{"acked", "gotN"}, words{"acked", "gotM"}}, "both arrive");
		check(sides[who].establish(zero) == um::answer::ok && run(sides, 4) == opened, "an open link is opened again");
	}
	ends sides = fresh;
	check(sides[0].establish(zero) == um::answer::ok && sides[1].establish(zero) == um::answer::ok, "both open");
	check(run(sides, 6) == opened, "at once");
	check(sides[0].establishment() == um::establishment::normal && um::name(sides[0].establishment()) == "normal", "the kind");
	check(sides[0].open({1}) == um::answer::nocall && sides[0].close(zero) == um::answer::ok, "it opens with establish");
	check(sides[0].establish(zero) == um::answer::notidle, "not while it is released");
	check(um::datalink::from_bytes(sides[1].to_bytes())->establishment() == um::establishment::normal, "saved");
	um::datalink none(um::role::mobile, um::channel::sdcch, um::establishment{2}, 4, 6);
	check(none.establish(zero) == um::answer::noend, "no such kind of establishment");

	// an answer is said twice: RR with N(R) = 1
	sides = fresh;
	um::last_answer last;
	check(sides[0].establish(zero) == um::answer::ok && run(sides, 4) == opened, "open");
	check(sides[1].send(zero, {'P'}) == um::answer::ok && sides[0].take(sides[1].next().block), "the network sends");
	const auto first = last.next(sides[0]);
	const auto second = last.next(sides[0]);
	check(begins(first.block, {0x03, 0x21, 0x01}) && first.block == second.block && !second.is_free, "said twice");
	const auto acked = sides[1].take(second.block);
	check(last.next(sides[0]).is_free && acked && acked.notices().size() == 1, "not three times; the second acknowledges");

	// RR 3, a UA and a DM with F = 1 that nothing on the open link asked for, and the fill frame
	const auto shows = [&](std::initializer_list<std::uint8_t> head) {
		um::block received;
		received.fill(0x2b);
		std::copy(head.begin(), head.end(), received.begin());
		return name(sides[0].fault(received));
	};
	check(shows({0x01, 0x61, 0x01}) == "nr" && shows({0x01, 0x73, 0x01}) == "ua" && shows({0x01, 0x1f, 0x01}) == "dm", "faults");
	check(shows({0x03, 0x03, 0x01}) == "none" && sides[0].fault(std::vector<std::uint8_t>(22)) == um::fault::none, "no fault");

	// a mobile comes back to the channel that it opened by contention
	sides = ends{um::datalink(um::role::mobile), um::datalink(um::role::network)};
	check(sides[0].open({1, 2}) == um::answer::ok && run(sides, 4) == opened, "by contention");
	check(sides[0].establishment() == um::establishment::contention, "the kind");
	check(sides[0].establish(zero) == um::answer::ok && run(sides, 4) == opened, "the network reports the return");
	check(sides[1].establishment() == um::establishment::normal, "at both sides");

	// a handover: what is not acknowledged is sent again over another link
	const std::vector<std::uint8_t> long_one(251, 'B');
	check(sides[0].send(zero, long_one) == um::answer::ok && sides[0].send(zero, {'C'}) == um::answer::ok, "B, C");
	check(run(sides, 400, true)[0] == words{"closed"}, "nothing arrives any more");
	const auto waiting = sides[0].unacked(zero);
	check(waiting.size() == 2 && sides[0].unacked(um::sapi::short_messages).empty(), "both are not acknowledged");
	check(waiting[0].size() == 251 && std::equal(waiting[0].begin(), waiting[0].end(), long_one.begin()), "in order");
	ends next = fresh;
	check(next[0].establish(zero) == um::answer::ok && run(next, 4) == opened, "the new channel");
	for (const um::message &message : sides[0].unacked(zero))
		check(next[0].send(zero, message) == um::answer::ok, "again");
	check(run(next, 100) == std::array<words, 2>{words{"acked"}, words{"gotB", "gotC"}} && next[0].unacked(zero).empty(), "each arrives");
}

int main(int count, char **given)
{
	check(count == 3, "usage: wrapper CODE.IN CODE.OUT");
	const int lines = count == 3 ? vectors(given[1], given[2]) : 0;
	check(um::version() == UM_VERSION_NUMBER, "the version of the library is that of its header");
	refusals();
	views();
	counts();
	session();
	ends();
	traffic();
	slots();
	nearly_lost();
	links();
	opened_again();
	establishments();
	std::printf("library: um.hpp on %d vectors, its refusals, views, a session of both links, a time slot and data links\n", lines);
	return failed;
}
