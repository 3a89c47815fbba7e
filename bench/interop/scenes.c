/* Runs scenes of a few frames with an endpoint of um and one of libosmogsm, and compares what each sends and reports with the scene.
 *
 *   scenes [-v] < scenes.txt
 *
 * `scene ROLE CHANNEL TITLE` starts a scene. Steps: `takes HEX`, a received block, filled up with 2b; the calls `open SAPI [HEX]`,
 * `send SAPI HEX`, `unit SAPI HEX` and `close SAPI`; `t200 N`, T200 expires N times; `hold` and `go`, between which frames are queued.
 * Each step is followed by `both` with the expected result of both, or by a line `um` and a line `osmo`: the frames sent, as `>HEX` without
 * fill and with a repeat count, then the reports; of more than 40 octets, the first and last four and the count. Only the network reports
 * the information of the SABM, and neither side reports acknowledgements, since libosmogsm does not. Spaces in HEX are ignored. */
#include "side.h"
#include <stdio.h>
#include <stdlib.h>
#include <string.h>

enum { T200 = 2040, LINE = 1400 }; /* 40 slots, since each frame that is fetched takes one */
static struct side sides[2];
static char told[2][LINE], done[2][LINE];
static bool running, held, verbose;
static int line_number, mistakes, passed, failed;
static char title[200];

static void add(char *text, const char *word)
{
	size_t at = strlen(text);
	snprintf(text + at, LINE - at, "%s%s", at ? " " : "", word);
}

static void add_octets(char *text, const char *word, const uint8_t *octets, int count)
{
	char all[200];
	bool many = count > 40;
	int at = snprintf(all, sizeof all, "%s", word);
	for (int i = 0; i < count; i++)
		if (!many || i < 4 || i >= count - 4)
			at += snprintf(all + at, sizeof all - (size_t)at, many && i == 3 ? "%02x.." : "%02x", octets[i]);
	if (many)
		snprintf(all + at, sizeof all - (size_t)at, "/%d", count);
	add(text, all);
}

static void report(struct side *s, int link, enum event event, const uint8_t *octets, int number)
{
	static const char *const words[] = { "opened", "got", "unit", "acked", "oversize", "closed", "error" };
	static const char *const reasons[] = { "contention", "failed", "refused", "released" };
	char word[40], *text = told[s - sides];
	if (event == ACKED)
		return;
	int at = snprintf(word, sizeof word, "%s%s", words[event], link == LINK3 ? "3" : "");
	if (event == CLOSED)
		snprintf(word + at, sizeof word - (size_t)at, ":%s", reasons[number]);
	else if (event == ERROR)
		snprintf(word + at, sizeof word - (size_t)at, ":%d", number);
	else if ((event == OPENED && s->role == UM_NETWORK && number) || event == GOT || event == UNIT) {
		snprintf(word + at, sizeof word - (size_t)at, ":");
		add_octets(text, word, octets, number);
		return;
	}
	add(text, word);
}

static void end_scene(void)
{
	if (!running)
		return;
	for (int i = 0; i < 2; i++)
		sides[i].player->end(&sides[i]);
	passed += !mistakes;
	failed += mistakes != 0;
}

static void begin_scene(const char *role, const char *on, const char *name)
{
	static const struct player *const players[2] = { &um_player, &osmo_player };
	end_scene();
	running = true;
	held = false;
	mistakes = 0;
	snprintf(title, sizeof title, "%s", name);
	for (int i = 0; i < 2; i++) {
		memset(&sides[i], 0, sizeof sides[i]);
		sides[i].player = players[i];
		sides[i].role = strcmp(role, "mobile") ? UM_NETWORK : UM_MOBILE;
		sides[i].on = strcmp(on, "sacch") ? UM_SDCCH : UM_SACCH;
		sides[i].polled = true;
		sides[i].t200 = T200;
		sides[i].report = report;
		sides[i].player->begin(&sides[i]);
	}
}

static uint8_t last[2][23];
static int again[2];

static void add_count(int i)
{
	char count[20];
	if (again[i] > 1) {
		snprintf(count, sizeof count, "x%d", again[i]);
		add(done[i], count);
	}
	again[i] = 0;
}

/* The frames that a side sends, without fill, each with its repeat count. */
static void fetch(int i)
{
	uint8_t block[23];
	size_t start = sides[i].on == UM_SACCH ? 2 : 0;
	while (!held && sides[i].player->next(&sides[i], block)) {
		int length = (int)start + 3 + (block[start + 2] >> 2);
		memset(block, 0, start);
		if (again[i] && !memcmp(block, last[i], 23)) {
			again[i]++;
			continue;
		}
		add_count(i);
		add_octets(done[i], ">", block, length > 23 ? 23 : length);
		memcpy(last[i], block, 23);
		again[i] = 1;
	}
}

static void expire(int times)
{
	for (int k = 0; k < times; k++) {
		now += T200 + 1;
		for (int i = 0; i < 2; i++) {
			sides[i].player->timers(&sides[i]);
			if (k + 1 < times)
				fetch(i);
		}
	}
}

static uint8_t octets_of(const char *hex, uint8_t *octets)
{
	int count = 0, digits = 0, value = 0;
	for (; *hex; hex++)
		if (*hex != ' ') {
			value = value * 16 + (*hex <= '9' ? *hex - '0' : *hex - 'a' + 10);
			if (++digits % 2 == 0) {
				octets[count++] = (uint8_t)value;
				value = 0;
			}
		}
	return (uint8_t)count;
}

static void step(const char *word, const char *rest)
{
	um_message m = { 0 };
	uint8_t block[23];
	done[0][0] = done[1][0] = told[0][0] = told[1][0] = 0;
	if (!strcmp(word, "takes")) {
		memset(block, 0x2b, 23);
		octets_of(rest, block);
	} else if (strcmp(word, "t200"))
		m.count = octets_of(rest + strcspn(rest, " "), m.octets);
	int link = *rest == '3' ? LINK3 : LINK0;
	held = strcmp(word, "hold") ? held && strcmp(word, "go") : true;
	if (!strcmp(word, "t200"))
		expire(atoi(rest));
	for (int i = 0; i < 2; i++) {
		struct side *s = &sides[i];
		const struct player *p = s->player;
		bool taken = true;
		if (!strcmp(word, "takes"))
			p->take(s, block);
		else if (!strcmp(word, "open"))
			taken = p->open(s, link, &m);
		else if (!strcmp(word, "send"))
			taken = p->send(s, link, &m);
		else if (!strcmp(word, "unit"))
			taken = p->unit(s, link, &m);
		else if (!strcmp(word, "close"))
			taken = p->close(s, link);
		fetch(i);
		add_count(i);
		if (told[i][0])
			add(done[i], told[i]);
		if (!taken)
			add(done[i], "no");
	}
}

static void expect(const char *name, int i, const char *text)
{
	if (verbose)
		printf("%s %s\n", name, done[i]);
	if (!strcmp(text, done[i]))
		return;
	mistakes++;
	printf("scenes: line %d, %s: %s: expected \"%s\", found \"%s\"\n", line_number, title, name, text, done[i]);
}

int main(int count_of_words, char **words)
{
	char line[LINE], word[20], role[20], on[20];
	verbose = count_of_words > 1 && !strcmp(words[1], "-v");
	quiet_osmo();
	for (line_number = 1; fgets(line, sizeof line, stdin); line_number++) {
		int at = 0;
		line[strcspn(line, "\n")] = 0;
		if (!line[0] || line[0] == '#' || sscanf(line, "%19s %n", word, &at) != 1)
			continue;
		const char *rest = line + at;
		if (verbose && strcmp(word, "um") && strcmp(word, "osmo") && strcmp(word, "both"))
			puts(line);
		if (!strcmp(word, "scene")) {
			at = 0;
			sscanf(rest, "%19s %19s %n", role, on, &at);
			begin_scene(role, on, rest + at);
		} else if (!strcmp(word, "um") || !strcmp(word, "osmo") || !strcmp(word, "both")) {
			if (word[0] != 'o')
				expect("um", 0, rest);
			if (word[0] != 'u')
				expect("osmo", 1, rest);
		} else
			step(word, rest);
	}
	end_scene();
	printf("scenes: %d passed, %d failed\n", passed, failed);
	return failed != 0;
}
