// words.mjs - the words of the package: frame kinds, states, notices and reasons, in the order of the numbers of um.h.

// the version of the package; that of um.wasm has the same first two numbers
export const VERSION = "0.3.0-dev";

export const KINDS = Object.freeze(["i", "rr", "rnr", "rej", "sabm", "dm", "ui", "disc", "ua"]);
export const CHANNELS = Object.freeze(["sdcch", "sacch"]);
export const SAPIS = Object.freeze([0, 3]);
export const LOGICAL_CHANNELS = Object.freeze(["sdcch", "sacch", "bcch", "ccch", "fcch", "sch", "rach", "facch"]);
export const COMBINATIONS = Object.freeze(["bcch_ccch", "bcch_ccch_sdcch4", "sdcch8", "tch_f", "tch_h"]);
export const TRAFFIC_CHANNELS = Object.freeze(["full_rate", "half_rate_0", "half_rate_1"]);
export const TRAFFIC_KINDS = Object.freeze(["sacch", "facch", "stolen", "speech"]);
export const DIRECTIONS = Object.freeze(["downlink", "uplink"]);
export const ROLES = Object.freeze(["mobile", "network"]);
export const ESTABLISHMENTS = Object.freeze(["contention", "normal"]);
export const FAULTS = Object.freeze(["nr", "ua", "dm"]);
export const STATES = Object.freeze(["idle", "opening", "open", "closing", "closed"]);
export const UNREAD = Object.freeze(["lpd", "ea", "control", "el", "length", "empty", "more"]);
export const NOTICES = Object.freeze(["opened", "got", "unit", "acked", "oversize", "closed"]);
export const REASONS = Object.freeze(["contention", "failed", "refused", "released"]);

const WHY = {
  notidle: "the link was opened already",
  notopen: "the link is not open",
  notrunning: "T200 does not run: no frame awaits an answer",
  empty: "the message is empty; expected at least one octet",
  toolong: "the message is too long; send takes at most 251 octets, open and unit 20 (18 on SACCH)",
  full: "eight messages are not completely acknowledged yet",
  noend: "the state is not valid",
  nocall: "the mobile opens the link of SAPI 0 with open; either end opens the link of SAPI 3 with openBare",
  noframe: "the octets are not an LAPDm frame; readFrame returns the reason",
};
export const REFUSALS = Object.freeze(Object.keys(WHY));
const WHY_SLOT = {
  noslot: "the state is not valid",
  doubled: "this frame was taken last",
  late: "this frame is before the one that was taken last",
};
export const SLOT_REFUSALS = Object.freeze(Object.keys(WHY_SLOT));
export const TRAFFIC_REFUSALS = Object.freeze(["notraffic", "doubled", "late"]);

export class Refused extends Error {
  constructor(reason, message = WHY[reason] ?? WHY_SLOT[reason === "notraffic" ? "noslot" : reason]) {
    super(message);
    this.name = "Refused";
    this.reason = reason;
  }
}
