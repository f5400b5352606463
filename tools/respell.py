#!/usr/bin/env python3
"""Brings the names of this repository's own definitions and lemmas to today's spelling.

usage: python3 tools/respell.py [TOP]      once, after /opt/rattle/port/port.py, at the top of the checkout

Definitions, lemmas, record fields and constructors are in snake case, types in camel case; a dash stays only where it
joins the names of two definitions, as in `rounding-le`. Functions of src/, strings, inputs and outputs are left alone.
It goes by whole names, in the .rt and .antt files of crates/, and in README.md and docs/ (docs/PORT*.md aside).
"""

import os
import re
import sys

# A name that would fall together with another has a third one: a lemma that would have the name of its definition
# ends in `_lem`.
NAMES = {
    # weight
    "size-neg": "size_neg",
    "rounding-size": "rounding_size",
    "rounding-le-self": "rounding-le_self",
    "rounding-nearest": "rounding-Nearest",
    "nearest-near": "nearest_near",
    "times-neg": "times_neg",
    # scale
    "lastCode": "last_code",
    "widestSpan": "widest_span",
    "isDivision": "is_division",
    "codesInRange": "codes_in_range",
    "weightsInRange": "weights_in_range",
    "settingsInRange": "settings_in_range",
    "headShows": "head_shows",
    "settledOver": "settled_over",
    "converterShows": "converter_shows",
    "meanOver": "mean_over",
    "smoothingShows": "smoothing_shows",
    "lastWeights": "last_weights",
    "take-both": "take_both",
    "length-shifted": "length_shifted",
    "zeros-ranged": "zeros_ranged",
    "take-ranged": "take_ranged",
    "window-ranged": "window_ranged",
    "more-ranged": "more_ranged",
    "newest-ranged": "newest_ranged",
    "copy-again": "copy_again",
    "copy-all": "copy_all",
    "sum-size": "sum_size",
    "mean-ranged": "mean_ranged",
    "span-some": "span_some",
    "division-some": "division_some",
    # weighing
    "headTrace": "head_trace",
    "head-trace": "head_trace_lem",
    "converterTrace": "converter_trace",
    "converter-trace": "converter_trace_lem",
    "smoothedTrace": "smoothed_trace",
    "layer-trace": "layer_trace",
    "layer-from": "layer_from",
    "converterAnswer": "converter_answer",
    "converted-next": "converted_next",
    "shows-latest": "shows_latest",
    "take-newest": "take_newest",
    "reverse-more": "reverse_more",
    "Settled-when-alike": "SettledWhenAlike",
    "settled-when-alike": "settled_when_alike",
    "below-highest": "below_highest",
    "above-lowest": "above_lowest",
    "highest-of": "highest_of",
    "lowest-of": "lowest_of",
    "length-same": "length_same",
    # board
    "transistorLimit": "transistor_limit",
    "relayLimit": "relay_limit",
    "transistorOutputs": "transistor_outputs",
    "relayOutputs": "relay_outputs",
    "refusedAt": "refused_at",
    "driveAnswer": "drive_answer",
    "afterTrip": "after_trip",
    "afterReset": "after_reset",
    "newBoard": "new_board",
    "worthOf": "worth_of",
    "adds-bit": "adds_bit",
    "byte-bits": "byte_bits",
    # store
    "afterAdd": "after_add",
    "afterClear": "after_clear",
    "newestOf": "newest_of",
    "noneOf": "none_of",
    "weightsOf": "weights_of",
    "weightAlone": "weight_alone",
    "stampedWeight": "stamped_weight",
    "weightOf": "weight_of",
    "oldestFirst": "oldest_first",
    "markAfter": "mark_after",
    "ringHolds": "ring_holds",
    "ringMemory": "ring_memory",
    "ringRecords": "ring_records",
    "rollHolds": "roll_holds",
    "rollPlaces": "roll_places",
    "length-parts": "length_parts",
    "at-parts": "at_parts",
    "length-oldestFirst": "length-oldest_first",
    "getD-oldestFirst": "get_or-oldest_first",
    "oldestFirst-none": "oldest_first-none",
    "oldestFirst-put": "oldest_first-put",
    "oldestFirst-after": "oldest_first-after",
    # totals
    "fullCount": "full_count",
    "rowSum": "row_sum",
    "rowAnswer": "row_answer",
    "overallCount": "overall_count",
    "overallWeight": "overall_weight",
    "overallOf": "overall_of",
    "isFull": "is_full",
    "isRecordable": "is_recordable",
    "canRecord": "can_record",
    "can-record": "can_record_lem",
    "count-raised": "count_raised",
    "count-le": "count_le",
    "count-more": "count_more",
    "count-upto": "count_upto",
    "weight-more": "weight_more",
    "overall-more": "overall_more",
    "low-joined": "low_joined",
    "high-joined": "high_joined",
    # recipe
    "everyUpTo": "every_up_to",
    "defaultFill": "default_fill",
    "fillChecked": "fill_checked",
    "fillInRange": "fill_in_range",
    "fillKeeps": "fill_keeps",
    "fillNumbers": "fill_numbers",
    "fillTimesInRange": "fill_times_in_range",
    "materialInRange": "material_in_range",
    "materialKeeps": "material_keeps",
    "targetAlone": "target_alone",
    "mostLoops": "most_loops",
    "mostLimits": "most_limits",
    "mostCorrection": "most_correction",
    "mostReadings": "most_readings",
    "draftValues": "draft_values",
    "numbersOf": "numbers_of",
    "numbersValues": "numbers_values",
    "sortInRange": "sort_in_range",
    "sortKeeps": "sort_keeps",
    "sortChecked": "sort_checked",
    "sortResult": "sort_result",
    "sortValues": "sort_values",
    "channelAnswer": "channel_answer",
    "channelFrom": "channel_from",
    "channelOf": "channel_of",
    "itemCounts": "item_counts",
    "itemWeight": "item_weight",
    "itemWeightAnswer": "item_weight_answer",
    "liesWithin": "lies_within",
    "limitAt": "limit_at",
    "found-more": "found_more",
    "bounds-at": "bounds_at",
    "lies-alone": "lies_alone",
    "found-channel": "found_channel",
    "channel-range": "channel_range",
    "in-range": "in_range",
    "mean-small": "mean_small",
    # edges
    "Converter-edges": "ConverterEdges",
    "Smoothing-edges": "SmoothingEdges",
    "Board-edges": "BoardEdges",
    "Edge-values": "EdgeValues",
    "Channel-edges": "ChannelEdges",
    "Weight-edges": "WeightEdges",
    "Item-edges": "ItemEdges",
    "exampleSettings": "example_settings",
    "exampleSorting": "example_sorting",
    "grossAnswer": "gross_answer",
    "weightAnswer": "weight_answer",
    "five-above": "five_above",
    "four-above": "four_above",
    "five-below": "five_below",
    "two-accepted": "two_accepted",
    "two-stand": "two_stand",
    "three-refused": "three_refused",
    "three-trip": "three_trip",
    "at-zone": "at_zone",
    "above-zone": "above_zone",
    "below-first": "below_first",
    # respelled by port.py in crates/ already, and left by it in the documents
    "byteOf": "byte_of",
    "countOf": "count_of",
    "goesAt": "goes_at",
    "liesAt": "lies_at",
    "noRows": "no_rows",
    "numberOf": "number_of",
    "rowOf": "row_of",
    "rowsOf": "rows_of",
    "canSum": "can_sum",
}

# A whole name: letters, digits, `_`, `-` and `'`. In a document it stands in backquotes or brackets.
WORD = re.compile(r"[A-Za-z_][\w'-]*")
STRING = re.compile(r'"(?:[^"\\]|\\.)*"')


def respelled(text):
    return WORD.sub(lambda m: NAMES.get(m.group(0), m.group(0)), text)


def outside_strings(text):
    """The text respelled, its string literals left alone."""
    parts, end = [], 0
    for m in STRING.finditer(text):
        parts += [respelled(text[end : m.start()]), m.group(0)]
        end = m.end()
    return "".join(parts + [respelled(text[end:])])


def in_backquotes(text):
    """The text with the names in backquotes respelled."""
    return re.sub(r"`[^`\n]*`", lambda m: respelled(m.group(0)), text)


def files(top):
    for folder, dirs, names in os.walk(os.path.join(top, "crates")):
        dirs[:] = sorted(d for d in dirs if d not in ("out", "data"))
        for name in sorted(names):
            if name.endswith((".rt", ".antt")):
                yield os.path.join(folder, name), outside_strings
    yield os.path.join(top, "README.md"), in_backquotes
    docs = os.path.join(top, "docs")
    for name in sorted(os.listdir(docs)):
        if name.endswith(".md") and not name.startswith("PORT"):
            yield os.path.join(docs, name), in_backquotes


def main():
    top = sys.argv[1] if len(sys.argv) > 1 else "."
    twice = {new for new in NAMES.values() if list(NAMES.values()).count(new) > 1}
    if twice:
        sys.exit(f"these fall together: {sorted(twice)}")
    for path, turn in files(top):
        with open(path, encoding="utf-8") as f:
            old = f.read()
        new = turn(old)
        if new != old:
            with open(path, "w", encoding="utf-8") as f:
                f.write(new)
            print(path)


if __name__ == "__main__":
    main()
