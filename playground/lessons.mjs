// The nine lessons. A step is a view, its state, and a page of text.
import { EXAMPLE } from "./dom.mjs";

const SEVEN = [123, 137, 255, 269, 310, 533, 584]; // the positions of the seven coded bits that depend on u(100)
const NOISY = { noise: 0, seed: 18 }; // a block whose most likely word is wrong and whose second is the one sent

const OPEN = ["mob open 01", "up deliver", "down deliver"];
const HELLO = [...OPEN, "mob send 68656c6c6f", "up deliver"];
const SAPI3 = ["mob3 open", "net3 open", "up deliver", "down deliver"];
const EARLY = [...OPEN, "mob send 6f6e65", "mob send 74776f"];

const paragraphs = (text) => text.trim().split(/\n\s*\n/).map((words) => words.replace(/\s+/g, " "));
const block = (params, text) => ({ view: "block", params: { octets: EXAMPLE, tsc: 7, ...params }, text: paragraphs(text) });
const facch = (rate, text) => ({ view: "facch", params: { octets: EXAMPLE, rate }, text: paragraphs(text) });
const link = (lines, params, text) => ({
  view: "link",
  params: { ...params, lines: lines.join(".").replaceAll(" ", "_") },
  text: paragraphs(text),
});
const flips = (count) => ({ flips: SEVEN.slice(0, count).join(".") });

export const LESSONS = [
  {
    title: "How a block is sent and received",
    about: "From 23 octets to four bursts and back, bit by bit.",
    steps: [
      block({}, `
        A block is 23 octets. This one is an I frame from the mobile with five octets of information. Its 184 bits are sent octet by
        octet, least significant bit first. 40 CRC bits follow (a Fire code), with which the receiver tests the decoded word.
        Four zero bits, the tail, return the encoder to its first state.

        Point at a data bit, or reach the grid with Tab and move with the arrow keys. The line above the bits names the octet of the bit,
        and the seven coded bits that depend on it light up.`),
      block({ flips: "3" }, `
        Each of the 228 bits gives two coded bits. Each coded bit is the sum, modulo 2, of up to four information bits: this is the
        convolutional code of rate 1/2 and constraint length 5. Interleaving then spreads the 456 coded bits over four bursts.
        Neighbours are never in the same burst, as the colours show.

        A normal burst has 57 coded bits, a stealing flag, the training sequence of 26 bits (the midamble), another flag, 57 coded bits,
        and a tail at each end. Here bit 3 of burst 0 is flipped. See which coded bit it is; the block is still decoded.`),
      block({ noise: 3, seed: 5 }, `
        A demodulator outputs soft bits, whose sign is the bit and whose size is the confidence. Here they have white Gaussian noise at an
        Es/N0 of 3 dB; faint bits are uncertain. The receiver finds the word whose coded bits match best: its path metric is the sum of
        the soft bits, each added if it agrees and subtracted if not. It is proved that no other word has a greater metric.

        Lower the Es/N0 and press New noise a few times. First, wrong bits are corrected; later, blocks are lost.`),
    ],
  },
  {
    title: "Three wrong bits",
    about: "Why three wrong bits never cost a block, and which four do.",
    steps: [
      block(flips(3), `
        Any two words differ in at least seven coded bits. So if at most three bits are wrong and all are equally certain, the word that
        was sent is closer than any other, wherever the three bits are. This is proved.

        Here three of the seven coded bits that depend on u(100) are flipped. The margin over the next word has fallen from 1778, which
        is seven bits of 254, to 254, which is one bit.`),
      block(flips(4), `
        Now a fourth of the seven bits is flipped, and another word is closer: the one that differs in u(100) alone. The receiver decodes
        that word. It differs from the received bits in three bits, the word that was sent in four. The CRC fails, so the block is not
        accepted.

        Two methods still recover it. List decoding: the word of rank 2 is the one that was sent, and its CRC holds. Error correction by
        the CRC: the wrong bits of the word lie within twelve consecutive bits.`),
      block({ flips: "20.21.22.23.24.25.26.27.28.29.170.171.172.173.174.175" }, `
        The position of wrong bits matters more than their number. Here sixteen are flipped, in two runs, and the block is decoded:
        deinterleaving moves neighbours far apart.

        Flip more bits, one at a time, and watch the margin fall.`),
    ],
  },
  {
    title: "A lost burst",
    about: "A quarter of a block is missing, and it is still decoded.",
    steps: [
      block({ lost: "1" }, `
        Burst 1 is lost. Its 148 bits are unknown, so their soft bits are 0, which counts neither for nor against any word. The burst
        carried every fourth coded bit; the other three bursts are enough.

        The report counts a soft bit of 0 as wrong, because nothing was received: 114 of 456. The margin has fallen from 1778 to 1270.`),
      block({ lost: "1", noise: 4, seed: 3 }, `
        With one burst lost, the margin is smaller, so the block withstands less noise. Here Es/N0 is 4 dB. Press New noise several times.
        Then clear the box of burst 1 and compare.`),
      block({ lost: "13" }, `
        Two bursts are lost, so half of the coded bits are unknown. The block is still decoded, but the margin is 508: some other word
        differs in only two of the bits that are left.

        Flip bits in the other bursts. One bit in the wrong position makes two words equally likely; two lose the block.`),
    ],
  },
  {
    title: "When the second word is the right one",
    about: "The CRC chooses among the most likely words.",
    steps: [
      block({ ...NOISY, most: 1 }, `
        At this noise the most likely word is not the one that was sent. Its CRC fails, and an ordinary receiver loses the block. The red
        bars above the decoded word mark its wrong bits.`),
      block(NOISY, `
        This receiver uses list decoding: it tries up to 64 words, the most likely first, and accepts the first whose CRC holds. Here that
        is the second. It is proved that no word with a valid CRC fits better.

        The margin shows how close the decision was: the first word fits only a little better than the second.`),
      block({ ...NOISY, noise: -1 }, `
        A wrong word passes the CRC of 40 bits by chance once in 2^40 tries, so 64 tries add almost no risk. With more noise, none
        of the 64 words may have a valid CRC. Press New noise: how often is a block accepted, and at which rank?`),
    ],
  },
  {
    title: "Contention of two mobiles",
    about: "Two mobiles use the same channel, and one of them learns that the channel is not its own.",
    steps: [
      link(["rival 02", "mob open 01"], {}, `
        Two mobiles sent the same channel request, and both believe that the answer was for them. Each sends a SABM with information that
        identifies it: 02 and 01. Both blocks are on the air; the other mobile's is first.

        Press Deliver under "On the air, to the network".`),
      link(["rival 02", "mob open 01", "up deliver"], {}, `
        The network opened the link for 02, and its UA carries that information back. This is contention resolution: each mobile compares
        the information in the UA with its own. Deliver the UA to the mobile.`),
      link(["rival 02", "mob open 01", "up deliver", "down deliver", "up deliver"], {}, `
        The UA carries 02, but this mobile sent 01. It closes with the reason contention, and would request another channel. Its own SABM
        reached the network later and was ignored, because the link was open for the other mobile.

        Let the network send a message now: this mobile is closed and answers DM.`),
    ],
  },
  {
    title: "A lost acknowledgement",
    about: "A frame is sent twice, and its message is delivered once.",
    steps: [
      link(HELLO, {}, `
        The link is open, and the mobile's message arrived in one I frame. The network delivered it and answered RR with N(R) = 1, the
        number that it expects next. The RR is on the air. Press Lose under "On the air, to the mobile".`),
      link([...HELLO, "down lose"], {}, `
        The acknowledgement is lost. The mobile cannot know whether its frame or the answer was lost. When T200 expires, it retransmits
        the frame with P = 1, which demands an answer. Press "T200 expires" at the mobile, and deliver the frame.`),
      link([...HELLO, "down lose", "mob tick", "up deliver"], {}, `
        The network expected N(S) = 1 and received 0 again. It discards the information and answers REJ with F = 1 and N(R) = 1. The
        message was delivered once.

        Deliver the REJ: its N(R) acknowledges the message. The table of claims shows: accepted 1, delivered 1, acknowledged 1.`),
    ],
  },
  {
    title: "A collision on SAPI 3",
    about: "Both ends open the link for short messages at once.",
    steps: [
      link([...OPEN, ...SAPI3.slice(0, 2)], {}, `
        The link of SAPI 0 is open. Short messages use another link, SAPI 3, and either end may open it. Here both sent a SABM at once,
        and the two cross on the air. Deliver both.`),
      link([...OPEN, ...SAPI3], {}, `
        Each end received a SABM while it was waiting for the answer to its own, and answers UA. Deliver both UA frames: the link opens,
        once at each end.`),
      link([...OPEN, ...SAPI3, "up deliver", "down deliver", "net3 send 736d73"], {}, `
        The link of SAPI 3 is open, and a message is on the air. Each link has its own V(S), V(R) and V(A), its own T200, and its own
        claims; SAPI 0 is not affected.`),
    ],
  },
  {
    title: "What an early T200 does",
    about: "A timer shorter than the round trip costs frames, but no message.",
    steps: [
      link(EARLY, { t200: 10, delay: 3 }, `
        Here a block takes three steps of the clock, so a round trip takes six. T200 is ten steps. Start the clock: the mobile sends two
        messages, each in one frame. Stop the clock when nothing is on the air.`),
      link(EARLY, { t200: 4, delay: 3 }, `
        Now T200 is four steps. It expires while the RR is in transit, and the frame is sent again. Start the clock and count the
        frames in the chart: each message takes more of them, and each duplicate is answered with REJ.`),
      link([...OPEN, "mob send 6f6e65", "mob tick", "mob tick", ...Array(3).fill("up deliver"), ...Array(3).fill("down deliver")], {}, `
        The same by hand: T200 expired twice before anything arrived, so the I frame was sent three times. The first copy is delivered; the
        other two are discarded and answered with REJ. The message was delivered once and acknowledged once.

        Lose or delay any block, or damage up to three of its bits: each end still delivers a prefix of the messages that the other end
        accepted, each once, and only delivered messages are acknowledged. This is proved for every session.`),
    ],
  },
  {
    title: "The halves that FACCH steals",
    about: "A message during a call takes the place of speech, half a burst at a time.",
    steps: [
      facch("full", `
        During a call, a message that cannot wait is sent on FACCH: its block takes the place of speech. Each burst of a traffic channel
        carries two halves, the bits at odd positions and those at even positions.

        At full rate a block is spread over eight bursts: the odd positions of the first four, then the even positions of the last four.
        A dot is a bit of the other half, which belongs to speech or to another block. Point at a bit: it lights up in the block and in
        the burst that carries it.`),
      facch("full", `
        How does a receiver know which halves were stolen? Each burst has two stealing flags beside the training sequence. The flag hu is
        after it, at position 87, and tells of the odd positions. The flag hl is before it, at position 60, and tells of the even ones. A 1
        means stolen.

        So hu is 1 in the first four bursts, and hl in the last four. A lost burst costs this block only 57 of its 456 coded bits.`),
      facch("half", `
        At half rate a block has six bursts: the odd positions of the first two, the middle two whole, and the even positions of the last
        two. The middle bursts have both flags.

        Choose full rate and compare: the bits of the middle two are the odd positions of bursts 2 and 3, and the even ones of bursts 6
        and 7.`),
    ],
  },
];
