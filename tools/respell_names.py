#!/usr/bin/env python3
"""Brings the repository's own names in specs, proofs and clauses to snake case.

usage: python3 tools/respell_names.py      at the top of the repository, once, behind the toolchain's port.py

WORDS are definitions, fields and constructors that were in camel case; a part of a name between dashes is such a word too.
LABELS are fields and constructors that had a dash. Strings of the programs hold none of them.
"""

import pathlib
import re

WORDS = {
    "afterKey": "after_key",
    "afterPair": "after_pair",
    "answerTo": "answer_to",
    "atLeast0": "at_least_0",
    "beforeEnd": "before_end",
    "belowZero": "sixty_below",
    "bestStanding": "best_standing",
    "booleanAt": "boolean_at",
    "bothFit": "both_fit",
    "connectionLeft": "connection_left",
    "connectionRead": "connection_read",
    "decimalAfter": "decimal_after",
    "decimalOf": "decimal_of",
    "digitCount": "digit_count",
    "doneDoes": "done_does",
    "fairOf": "fair_of",
    "faultDoes": "fault_does",
    "fieldsToCome": "fields_to_come",
    "firstFits": "first_fits",
    "frameDoes": "frame_does",
    "frameEnd": "frame_end",
    "frameSize": "frame_size",
    "frameSizeIn": "frame_size_in",
    "framesPut": "frames_put",
    "givenIn": "given_in",
    "givingBack": "giving_back",
    "goOn": "go_on",
    "goesOnKey": "goes_on_key",
    "grantOf": "grant_of",
    "headerOctets": "header_octets",
    "headerOf": "header_of",
    "heldBy": "held_by",
    "heldIn": "held_in",
    "holdingNow": "holding_now",
    "inClass": "in_class",
    "initialIn": "initial_in",
    "integerAt": "integer_at",
    "isBlank": "is_blank",
    "isDigit": "is_digit",
    "isFault": "is_fault",
    "isLetter": "is_letter",
    "isNamed": "is_named",
    "isSpace": "is_space",
    "isTrue": "is_true",
    "keyLength": "key_length",
    "lastAfter": "last_after",
    "lastServed": "last_served",
    "latestAfter": "latest_after",
    "latestIn": "latest_in",
    "latestOf": "latest_of",
    "leftRead": "left_read",
    "listingOf": "listing_of",
    "lowestFlag": "lowest_flag",
    "meaningOf": "meaning_of",
    "memberAt": "member_at",
    "momentOf": "moment_of",
    "mostRoom": "most_room",
    "movedText": "moved_text",
    "newSeat": "new_seat",
    "nextSaid": "next_said",
    "nextText": "next_text",
    "notWhole": "not_whole",
    "numberAfter": "number_after",
    "numberOr8": "number_or_8",
    "octetsIn": "octets_in",
    "octetsOf": "octets_of",
    "offeredTo": "offered_to",
    "okOr": "ok_or",
    "openGrants": "open_grants",
    "orderAfter": "order_after",
    "overHeld": "over_held",
    "pairField": "pair_field",
    "pairFields": "pair_fields",
    "plainFirst": "plain_first",
    "plainOrWaited": "plain_or_waited",
    "priorityIn": "priority_in",
    "priorityOf": "priority_of",
    "priorityUpdate": "priority_update",
    "priorityUpdateFrame": "priority_update_frame",
    "raisedBy": "raised_by",
    "ranksAfter": "ranks_after",
    "readOr": "read_or",
    "recordOf": "record_of",
    "renewedBy": "renewed_by",
    "resetStream": "reset_stream",
    "resetStreamFrame": "reset_stream_frame",
    "saidData": "said_data",
    "saidPriority": "said_priority",
    "saidTold": "said_told",
    "seatOf": "seat_of",
    "sentAll": "sent_all",
    "sentOn": "sent_on",
    "servedNow": "served_now",
    "settingAt": "setting_at",
    "settingsAck": "settings_ack",
    "settingsFrame": "settings_frame",
    "settingsFrom": "settings_from",
    "settingsOf": "settings_of",
    "settledBy": "settled_by",
    "settledTimes": "settled_times",
    "sixtyHeld": "sixty_held",
    "sixtySpent": "sixty_spent",
    "spentBy": "spent_by",
    "standingOf": "standing_of",
    "startsKey": "starts_key",
    "streamIn": "stream_in",
    "streamOf": "stream_of",
    "streamRead": "stream_read",
    "streamsIn": "streams_in",
    "sumText": "sum_text",
    "taleOf": "tale_of",
    "tenHeld": "ten_held",
    "textFrom": "text_from",
    "timesOn": "times_on",
    "toCome": "to_come",
    "toEnd": "to_end",
    "toldData": "told_data",
    "toldFrame": "told_frame",
    "totalOn": "total_on",
    "unreadablePriority": "unreadable_priority",
    "urgencyIn": "urgency_in",
    "urgencyNumber": "urgency_number",
    "urgencyNumbered": "urgency_numbered",
    "urgencyOf": "urgency_of",
    "usedBy": "used_by",
    "voidedTimes": "voided_times",
    "waitedLonger": "waited_longer",
    "windowOf": "window_of",
    "windowRead": "window_read",
    "windowUpdate": "window_update",
    "windowUpdateFrame": "window_update_frame",
    "withBoth": "with_both",
    "withFirst": "with_first",
    "withFrame": "with_frame",
    "withGate": "with_gate",
    "withLive": "with_live",
    "withPriority": "with_priority",
    "withStream": "with_stream",
    "withoutNumber": "without_number",
    "withoutStream": "without_stream",
    "withoutTopBit": "without_top_bit",
    "workedNumbers": "worked_numbers",
}

LABELS = [
    "bad-id",
    "bad-size",
    "bad-window",
    "below-zero",
    "each-once",
    "is-in",
    "least-limit",
    "left-initial",
    "left-low",
    "limit-high",
    "limit-low",
    "most-once",
    "no-space",
    "none-ready",
    "not-granted",
    "not-open",
    "open-stream",
    "past-most",
    "priority-accepted",
    "priority-unreadable",
    "raised-taken",
    "reset-accepted",
    "reset-closed",
    "reset-idle",
    "settings-accepted",
    "settings-refused",
    "sixty-taken",
    "some-limit",
    "target-even",
    "target-not-open",
    "ten-taken",
    "up-to-most",
    "used-up",
    "was-ended",
    "window-accepted",
    "window-closed",
    "window-high",
    "window-idle",
    "window-low",
    "window-none-connection",
    "window-none-stream",
    "window-over-connection",
    "window-over-stream",
]

WORD = re.compile(r"(?<![A-Za-z0-9_'])[A-Za-z_][A-Za-z0-9_']*")
LABEL = re.compile(r"(?<![A-Za-z0-9_'-])(" + "|".join(LABELS) + r")(?![A-Za-z0-9_'-])")


def code_and_comment(line):
    """A line of antt, cut before its comment."""
    at = line.find("--")
    return (line, "") if at < 0 else (line[:at], line[at:])


def respelled(path, text):
    text = WORD.sub(lambda m: WORDS.get(m.group(0), m.group(0)), text)
    if path.suffix != ".antt":
        return text
    lines = [code_and_comment(line) for line in text.split("\n")]
    return "\n".join(LABEL.sub(lambda m: m.group(1).replace("-", "_"), code) + comment for code, comment in lines)


def main():
    for path in sorted(pathlib.Path("crates").rglob("*")):
        if path.suffix not in (".antt", ".rt") or "out" in path.parts:
            continue
        text = path.read_text(encoding="utf-8")
        new = respelled(path, text)
        if new != text:
            path.write_text(new, encoding="utf-8")


main()
