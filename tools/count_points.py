#!/usr/bin/env python3
"""count_points.py FOLDER [--point N].. [--list] [--second]: counts, in a checkout of this repository, the places of the eight points of docs/DESIGN-PASS.md.

For each point: the places in all and by crate (crates in the order of crates.txt); with --list each place as `crate path::item: what`.
Most rules go by the form of the code, so that a new place is found as well. What no form shows stands in tables below, each row with a pattern: a row counts
only while its item still stands and still matches the pattern. --second counts points 1 to 4 and 7 in another way. It reads text only.
"""
import collections
import difflib
import glob
import os
import re
import sys

ROOT = ""


# ---------------------------------------------------------------- reading

def clean(text):
    return "\n".join(re.sub(r"(^|\s)//.*$", "", line) for line in text.split("\n"))


def crates():
    with open(os.path.join(ROOT, "crates.txt"), encoding="utf-8") as file:
        return [l.split(":")[0].split()[0] for l in file if ":" in l and not l.startswith("#")]


def sources():
    for crate in crates():
        base = os.path.join(ROOT, "crates", crate, "src")
        for path in sorted(glob.glob(os.path.join(base, "**", "*.rt"), recursive=True)):
            module = os.path.relpath(path, base)[:-3].replace(os.sep, "::")
            with open(path, encoding="utf-8") as file:
                yield crate, "" if module in ("lib", "main") else module + "::", clean(file.read())


FN = re.compile(r"^(?P<ind> *)(?:pub(?:\([^)]*\))? )?(?:const )?(?:unsafe )?(?:extern \"C\" )?fn (?P<name>\w+)")


def split_commas(text):
    parts, depth, now = [], 0, ""
    for ch in text:
        depth += (ch in "(<[{") - (ch in ")>]}")
        if ch == "," and depth == 0:
            parts.append(now)
            now = ""
        else:
            now += ch
    parts.append(now)
    parts = [re.sub(r"\s+", " ", re.sub(r"#\[[^\]]*\]", "", p)).strip() for p in parts]
    return [p for p in parts if p]


class Fn:
    pass


def functions():
    for crate, module, text in sources():
        lines = text.split("\n")
        i, inside = 0, ""
        while i < len(lines):
            q = re.match(r"impl(?:<.*?>)? (?:.* for )?(\w+)", lines[i])
            inside = q.group(1) + "::" if q else "" if lines[i] == "}" else inside
            m = FN.match(lines[i])
            if not m:
                i += 1
                continue
            ind, k = m.group("ind"), i
            while k < len(lines) and not (lines[k] == ind + "{" or (lines[k].rstrip().endswith("{") and not re.match(r"\s*(requires|ensures)", lines[k]))):
                k += 1
            e = k
            while e < len(lines) and lines[e] != ind + "}":
                e += 1
            f = Fn()
            head = "\n".join(lines[i:k + 1])
            f.crate, f.path, f.name = crate, module + (inside if ind else "") + m.group("name"), m.group("name")
            f.body = "\n".join(lines[k + 1:e])
            sig = re.split(r"\n\s*(?:requires|ensures|decreases)\b", head)[0]
            pm = re.search(r"fn \w+(?:<.*?>)?\s*\((.*)\)\s*(?:->\s*(.*?))?\s*\{?\s*$", sig, re.S)
            f.params = split_commas(pm.group(1)) if pm else []
            f.result = (pm.group(2) or "").strip() if pm else ""
            f.head, f.text, f.clauses = sig, sig + "\n" + f.body, []
            for line in lines[i:k + 1]:
                q = re.match(r"\s*(requires|ensures)\s*(?:\w+\s*)?\{(.*)\}\s*$", line)
                if q:
                    f.clauses.append((q.group(1), q.group(2).strip()))
            yield f
            i = e + 1


TYPE = re.compile(r"^ *(?:pub )?(enum|struct) (\w+)(<[^>{]*>)?[^{;(\n]*(?:\{(.*?)^ *\}|\((.*?)\);|;)", re.M | re.S)


def types():
    for crate, module, text in sources():
        for m in TYPE.finditer(text):
            t = Fn()
            t.crate, t.path, t.kind, t.name = crate, module + m.group(2), m.group(1), m.group(2)
            t.parts = split_commas(m.group(4) if m.group(4) is not None else (m.group(5) or ""))
            yield t


def named(table):
    """The rows of a table (crate, path, pattern, what) whose item stands and matches."""
    have = collections.defaultdict(list)
    for f in functions():
        have[f.crate, f.path].append(f.text)
    for t in types():
        have[t.crate, t.path].append(t.kind + " " + t.name + " {" + ", ".join(t.parts) + "}")
    for crate, path, pattern, what in table:
        if any(not pattern or re.search(pattern, text, re.S) for text in have[crate, path]):
            yield crate, path, what


# ---------------------------------------------------------------- 1. own Option and Result, flags, numbers

FAIL = set("None Absent Bad Broken Wrong Breaks Failed Refused Unsupported Full Outside Misplaced TooLong Nothing Done No Unended BadLine BadNesting Unread Several Twice".split())
# Enums that have such a word but no such shape: states of a reader (the dead state is one of its states), and a tally's three cases.
NOT_1 = {("line", "scan::State"), ("time", "duration::Stage"), ("batch", "batch::Outcome")}
# Fields of type bool that are facts of the thing itself.
FACTS = {"timed", "back", "listed", "heads", "is_match"}

# Functions that answer a number for none, numbers for kinds and for refusals.
NUMBERS = [
    ("zones", "Part", r"month: u64", "month 0 for no rule: Option of the rule"),
    ("zones", "changes::next_by_rule", r"CLOCK_END", "CLOCK_END for none: Option<u64>"),
    ("zones", "changes::next_onset", r"CLOCK_END", "CLOCK_END for none: Option<u64>"),
    ("zones", "changes::next_change", r"CLOCK_END", "CLOCK_END for none: Option<u64>, or min of the parts"),
    ("query", "ComponentRecord", r"flag: usize", "flag 0/1 and range 0 for none: enum, Option<usize>"),
    ("query", "PropertyRecord", r"flag: usize", "flag 0/1/2, collation 0/1, range and text 0 for none: enums, Option<usize>"),
    ("query", "ParameterRecord", r"flag: usize", "flag 0/1/2, collation 0/1, text 0 for none: enums, Option<usize>"),
    ("query_check", "flag_good", r"flag: usize", "flag and text as numbers: the enum's own check"),
    ("zone_properties", "part::PartNumbers", r"month: u64", "month 0 for no rule: Option of the rule"),
    ("values", "rule::at_least_one", r"n < 1", "0 for an interval not given: Option, unwrap_or(1)"),
    ("pieces", "storing::put_piece", r"place: usize", "number of a busy type in a piece: the enum, or a row's number"),
    ("pieces", "storing::store_period", r"place < 3", "number of a busy type: Option"),
    ("pieces", "storing::may_have_pieces", r"< 3", "number of a busy type: == BusyType::Free"),
    ("tables", "table_of", r"place: u32", "number of a busy type: the enum"),
    ("tables", "table_at", r"place: u32", "number of a busy type: the enum"),
    ("collecting", "tables_of", r"column, n, 0", "numbers of busy types: the enum"),
    ("series", "beside::is_unshared", r"marks\[k\] == 0", "numbers for a flag: [bool]"),
    ("series", "prints::fill_prints", r"notes: &mut \[u8\]", "numbers for a flag: [bool]"),
    ("console", "fault_line::show_fault", r"line == 0", "0 for no line: Option<usize>"),
    ("batch", "batch::print_line", r"0 < line", "0 for no line: Option<usize>"),
    ("worked", "answer::put_place", r"line == 0", "0 for no line: Option<usize>"),
    ("pairs", "print_line", r"0 < line", "0 for no line: Option<usize>"),
    ("periods", "report_place", r"=> 3|-> usize", "3 for the type that is not reported: Option<usize>"),
    ("line", "scan::clear_name", r"\b0\b", "0 for no name: Option<usize>"),
    ("values", "time_lists::kind_number", r"-> u8", "number for a kind: derive(PartialEq)"),
    ("events", "rules::kind_number", r"-> u8", "number for a kind: derive(PartialEq)"),
    ("events", "rules::is_date", r"kind_number", "number for a kind compared: =="),
    ("structure", "rows::kind_of", r"-> u32", "0/1/2 for a component's kind: enum"),
    ("structure", "rows::kind_at", r"-> u32", "0/1/2 for a component's kind: enum"),
    ("structure", "read_structure", r"BadLine\(0\)", "BadLine(0) for a full index: error enum"),
    ("property_tests", "texts::collation_of", r"n: usize", "number for a collation: TryFrom"),
    ("property_tests", "texts::text_passes", r"flag: usize", "numbers for text, collation and flag: Option, enums"),
    ("property_tests", "texts::text_or", r"text == 0", "0 for no text: Option<usize>"),
    ("cli", "hex::hex_digit", r"=> 16", "16 for no digit: Option<u8>"),
    ("cli", "words::early", r"n: u8", "number for a refusal: Display of an enum"),
    ("cli", "words::middle", r"n: u8", "number for a refusal: Display of an enum"),
    ("cli", "words::late", r"n: u8", "number for a refusal: Display of an enum"),
    ("cli", "words::meaning", r"n: u8", "number for a refusal: Display of an enum"),
    ("events", "rows::EndingNumbers", r"tag: u64", "tag number of a stored enum (row of numbers)"),
    ("events", "rows::TaggedNumber", r"tag: u64", "tag number of a stored enum (row of numbers)"),
    ("events", "rows::kind_of", r"tag: u64", "tag to an enum: From/TryFrom"),
    ("events", "rows::ending_of", r"tag: u64", "tag to an enum: From/TryFrom"),
    ("events", "rows::repeat_of", r"tag: u64", "tag to an enum: From/TryFrom"),
    ("events", "rows::busy_of", r"place: u64", "number to an enum: From/TryFrom"),
    ("events", "rows::bound_of", r"tag: u64", "tag to an enum: Option<u64>"),
    ("identities", "rows::TaggedNumber", r"tag: u32", "tag number of a stored enum (row of numbers)"),
    ("identities", "rows::kind_tag", r"-> u32", "number for a kind: From, or the row's number kept"),
    ("identities", "rows::kinds_tag", r"-> u32", "number for kinds: From, or the row's number kept"),
    ("identities", "rows::kind_of", r"tag: u32", "tag to an enum: From/TryFrom"),
    ("identities", "rows::kinds_of", r"tag: u32", "tag to an enum: From/TryFrom"),
    ("identities", "rows::uid_of", r"tag: u32", "tag to an enum: From/TryFrom"),
    ("identities", "rows::recurrence_of", r"tag: u32", "tag to an enum: From/TryFrom"),
    ("series", "passes::stop_line", r"65536", "65536 for no line: Option, or Result's own order"),
    ("series", "prints::row_print", r"\b0\b", "0 for no UID: Option<u16>"),
    ("filter", "trials::ruled_out", r"r == 0", "0 for no range: Option<usize>"),
    ("filter", "trials::trial_of", r"r == 0", "0 for no range: Option<usize>"),
    ("vectors", "lines::digit", r"_ => 0", "0 for no digit: Option<u8>"),
    ("vectors", "answer", r"kind: u8", "a byte's number for what is asked: byte literals or an enum"),
    ("console", "args::word_at", r"Err\(_\) => 0", "0 for no word: Option or io::Result"),
    ("console", "out::refused", r"n: u8", "number for a refusal: enum with Display"),
    ("console", "out::print_reason", r"error: i32", "number for an error of the system: ErrorKind"),
    ("console", "out::unreadable", r"error: i32", "number for an error of the system: ErrorKind"),
    ("cases", "case::hex_digit", r"255", "255 for no digit: Option<u8>"),
    ("cases", "case::keep_number", r"match field", "number of a field for what it is: enum"),
    ("cases", "case::feed", r"match field", "number of a field for what it is: enum"),
    ("batch", "batch::print_unread", r"error: i32", "number for an error of the system: ErrorKind"),
    ("worked", "answer::put_refusal", r"n: u8", "number for a refusal: Display"),
    ("worked", "answer::put", r"size \+ 1", "size + 1 for no room: Option<usize>"),
    ("worked", "question::report_lent", r"Refused\(0, 0\)", "refusal 0 for a buffer that cannot be lent: Option"),
    ("worked", "question::match_lent", r"Refused\(0, 0\)", "refusal 0 for a buffer that cannot be lent: Option"),
    ("lokuwaine", "Spread", r"kind: u64", "number for a kind of answer: the C interface"),
    ("demands", "length_of", r"=> 0", "0 for no length: Option<usize>"),
]
NUMBERS = [row for row in NUMBERS if row[3]]


def point1():
    for t in types():
        if t.kind == "enum" and (t.crate, t.path) not in NOT_1:
            names = [re.match(r"\w+", p).group(0) for p in t.parts]
            full = [p for p in t.parts if "(" in p or "{" in p]
            option = len(t.parts) == 2 and len(full) == 1
            if option or FAIL & set(names) or (t.crate, t.path) in {("zone_values", "zone_rule::ZonePart"), ("cli", "arguments::Command")}:
                sort = "enum of the shape of Option" if option else "enum of the shape of Result" if full else "enum with a variant for none"
                yield t.crate, t.path, sort + ": " + " | ".join(t.parts)
        if t.kind == "struct":
            flags = [p.replace("pub ", "") for p in t.parts if re.search(r": (bool|Fault|ValueCheck|RuleCheck)$", p) and re.sub(r"pub ", "", p).split(":")[0] not in FACTS]
            if flags:
                yield t.crate, t.path, "flag or fault beside values: " + ", ".join(flags)
    for row in named(NUMBERS):
        yield row
    listed = {(a, b) for a, b, _, _ in NUMBERS}
    for f in functions():
        if (f.crate, f.path) in listed:
            continue
        if re.search(r"kind_at\([^()]*\) [!=]= \d|match rows::kind_at|\bkind == \d", f.body):
            yield f.crate, f.path, "number of a component's kind compared: the enum"
        if re.search(r"\bflag [!=<]=? \d", f.body):
            yield f.crate, f.path, "number of a record's flag compared: the enum"
        n = len(re.findall(r"(?:Fault::At|Refused)\(\d+,", f.body))
        if n:
            yield f.crate, f.path, "refusals by number (%d): error enum" % n


def second1():
    """Every enum that is left over, and every function that answers one of the own Option and Result types."""
    found = {(c, p) for c, p, _ in point1()}
    own = {p.split("::")[-1] for c, p, w in point1() if w.startswith("enum")}
    left = [(t.crate, t.path, " | ".join(t.parts)) for t in types() if t.kind == "enum" and (t.crate, t.path) not in found]
    answers = [f for f in functions() if f.result in own]
    uses = sum(len(re.findall(r"\b(?:%s)::(?:%s)\b" % ("|".join(own), "|".join(FAIL)), text)) for _, _, text in sources())
    bare = [f for f in functions() if re.search(r"return \w+\.len\(\);|-> (u8|u16|u32|i32)$", f.head + "\n" + f.body, re.M) and f.result in ("u8", "u16", "u32", "i32")]
    print("  second way: functions whose answer is one of these enums: %d; lines that name their failing variants: %d" % (len(answers), uses))
    print("  second way: enums left over, read one by one: " + "; ".join("%s %s {%s}" % x for x in left))
    print("  second way: functions that answer u8, u16, u32 or i32: " + "; ".join("%s %s" % (f.crate, f.path) for f in bare))


# ---------------------------------------------------------------- 2. twins

# Found by the form alone, but no twins: what is alike is only how short they are.
NOT_2 = {("line", "read::head"), ("line", "read::value"), ("line", "read::parameter_name"), ("structure", "rows::line_behind"), ("pairs", "main"), ("property", "status_named"), ("recurrence", "instance::default_length")}

# name of the group, members (a member counts while it stands), the one form.
TWINS = [
    ("the lesser and the greater of two", "text lesser; table lesser_of; table greater_of; pieces storing::lesser; pieces storing::greater; demands lesser", "min and max of Ord"),
    ("wide: a cast", "search wide; seconds wide; fingerprints wide; index wide; structure rows::wide; identities rows::wide; series beside::wide; series columns::wide; vectors calendars::wide; replay adler::wide", "usize::from, u64::from"),
    ("CR LF at a place", "text break_at; line check::break_at", "one function"),
    ("the first of a block of bytes", "text break_in; line check::control_in", "one function over F: Fn(u8) -> bool and const N, or kept for speed"),
    ("some of a block", "text fold_near; fingerprints is_near", "one function over const N, or any on the part"),
    ("block by block", "text skip_unfolded; text skip_unbroken; line check::skip_clear", "one function over const N and F"),
    ("the first place that is so, from a place on", "line scan::name_length; line scan::pass_name; line scan::pass_unquoted; line scan::pass_quoted; line split::skip_usual; line check::next_control; worked lines::find", "iter().position, or one function over F"),
    ("a row put at its place", "zones rows::put_row; structure rows::put_row; events rows::put_row; identities rows::put_row", "copy_from_slice, or one function over T and const N"),
    ("a run copied", "text copy_run; time writing::put_bytes; seconds merging::copy_part; table move_left; series removed::store_seconds", "copy_from_slice, copy_within"),
    ("begins with", "report heads::begins_with; worked lines::starts_with", "starts_with of slices"),
    ("the same bytes", "series uids::same_bytes; demands same_bytes; worked lines::same", "== of slices"),
    ("the same name, ASCII case disregarded", "ascii same_name; zone_values zone_rule::begins", "eq_ignore_ascii_case"),
    ("a line called so", "line read::is_called; index is_called", "index's asks line's"),
    ("the value behind the name", "line read::value_behind; property value_in", "one function"),
    ("a number from digits", "values rule::number_to; cli arguments::decimal_of; vectors calendars::shift; cases case::feed_number", "one fold over the bytes with a limit"),
    ("one digit more", "cli arguments::with_digit; vectors calendars::with_digit; cases case::with_digit", "one function, Option<u64>"),
    ("a hex digit", "cli hex::hex_digit; cases case::hex_digit; vectors lines::digit", "one function, Option<u8>"),
    ("bytes from pairs of hex digits", "cli hex::decode_hex; vectors lines::decode", "cli's"),
    ("four bytes as a number", "query fields::number4; fingerprints word", "u32::from_be_bytes, u32::from_le_bytes"),
    ("the start and the end of a range", "query fields::range_start; query fields::range_end", "one function that answers a Period"),
    ("a record of the query", "query fields::component_at; query fields::property_at; query fields::parameter_at", "a trait with the record's size, or From<[u8; N]>"),
    ("some record is so", "query_check has_child_component; query_check has_property; query_check has_parameter_record; query_check components_misplaced; query_check properties_misplaced", "(0..n).any(..)"),
    ("all records are so", "query_check ranges_good; query_check components_good; query_check properties_good; query_check parameters_good; property_tests properties_hold; property_tests parameters::parameters_hold", "(0..n).all(..)"),
    ("a part of a time zone", "zones Part; zone_properties part::PartNumbers", "one struct"),
    ("a rule of a time zone and its day", "zone_values zone_rule::ZoneRule; zone_values zone_rule::ZoneDay", "ZoneRule holds a ZoneDay"),
    ("Number, or Bad", "time date_time::Number; cli arguments::Number", "Option<u64>"),
    ("Second, or Outside", "time limits::Second; zones Sought; zone_values onset::OnsetRead; events Bound; series moved::NamedSecond", "Option<u64>"),
    ("OffsetRead", "zone_values offset::OffsetRead; refusals OffsetRead", "Option<u64> or Result"),
    ("Offset", "cli arguments::Offset; cases case::Offset", "Option<i64>"),
    ("an offset from its sign and size", "cli arguments::signed; cases case::offset_of", "one function"),
    ("a value read, or Bad", "time duration::DurationRead; values period::PeriodRead; values times::TimeRead; query SectionsRead; query PlaceRead; zone_properties part::PartMade; zone_values zone_rule::ZoneRuleRead; component_lines ValueStored; console args::Planned; worked question::Planned", "Option or Result"),
    ("a row, or none", "series masters::MasterRow; structure Found", "Option"),
    ("given, or absent", "events TimeGiven; events DurationGiven; events RuleGiven; events StatusGiven; events TransparencyGiven", "Option<T>"),
    ("is it given?", "events properties::time_given; events properties::duration_given; events properties::rule_given; events properties::status_given; events properties::transparency_given", "is_some"),
    ("read, or broken", "events EndingRead; events RepeatRead; events EventRead; events BlockRead", "Option<T> or Result"),
    ("none, one or several", "values time_lists::Kinds; zone_properties part::Given; zone_properties part::RuleGiven; identities UidGiven; identities RecurrenceGiven", "one generic enum"),
    ("one more given", "zone_properties part::one_more; zone_properties part::one_rule_more; identities more_uids; identities more_recurrences; values time_lists::with_kind", "one method of the generic enum"),
    ("a property if the test holds", "property property_if; zone_properties property_if", "then_some"),
    ("from a value read, or Bad", "values rule::interval_by; values rule::count_by; values rule::until_by; property recurrence_by; property duration_by; property rule_value; zone_properties onset_by; zone_properties from_by; zone_properties to_by; zone_properties rule_by; cli arguments::in_limits; cli arguments::with_sign; zone_values zone_rule::month_part", "map, ?"),
    ("in UTC only", "values period::utc_by; values times::utc_only; cli arguments::utc_clock; zone_values onset::floating_only", "one function over the kind, Option"),
    ("a parameter on the line", "property is_zoned; property is_ranged", "the name as a parameter"),
    ("the name of a form, of a state", "values times::form_named; values rule::frequency_part; property status_named; property busy_named", "TryFrom<&[u8]>"),
    ("step by step to a part", "zone_properties part::by_from; zone_properties part::by_to; zone_properties part::part_of", "?"),
    ("over the parts of a value", "values period::all_periods; values rule::rule_of; values time_lists::store_times; component_lines store_value; property_tests parameters::some_value; line split::part_count; line split::nth_part", "one iterator of the parts"),
    ("over the parameters of a line", "line read::usage_of; line read::first_value; property_tests parameters::some_named", "the same iterator"),
    ("over the lines of a component", "property_tests some_named; property_tests some_line; series uids::lines_have; filter ranges::lines_in", "one function over F: Fn(usize) -> bool"),
    ("number of a kind", "values time_lists::kind_number; events rules::kind_number; identities rows::kind_tag", "derive(PartialEq), one From"),
    ("the same kind", "values time_lists::same_kind; events rules::same_kind; overrides same_kind", "=="),
    ("a kind from its number", "events rows::kind_of; identities rows::kind_of", "one TryFrom"),
    ("a tag and a number", "events rows::TaggedNumber; identities rows::TaggedNumber", "one type, or none"),
    ("days and interval of a rule", "events rules::days_by; events rules::interval_by", "map_or"),
    ("properties with one more", "events properties::with_start; events properties::with_end; events properties::with_lasts; events properties::with_repeats; events properties::with_status; events properties::with_transparency", "Option::replace on the field"),
    ("put back together", "events properties::with_span; events properties::with_busy", "a field assigned"),
    ("a second, or the other form", "cli arguments::second_of; cli arguments::size_of", "or_else"),
    ("words of a refusal", "cli words::early; cli words::middle; cli words::late", "Display of the enum"),
    ("a word of the command line read", "console args::second_at; console args::offset_at", "one generic function over T and F"),
    ("the times asked for", "console args::Plan; worked question::Plan", "one struct"),
    ("the times asked for, read", "console args::read_plan; worked question::read_plan", "? on Option"),
    ("bytes printed", "console out::print; cases out::print; vectors out::print; worked out::print", "one function, or Print's own"),
    ("a number printed", "console out::print_number; cases out::print_number; vectors out::print_number", "one function, or Print's own"),
    ("a line that cannot be read", "cases out::print_unreadable; worked out::malformed", "one function"),
    ("an answer printed", "replay print_answer; pairs print_answer; loku print_answer; batch batch::print_verdict; worked answer::put_answer", "Display of the answer, what differs as a parameter"),
    ("a line's number printed", "batch batch::print_line; pairs print_line", "the words as a parameter"),
    ("one of two texts printed", "pairs print_same; pairs print_heads; loku verify::print_either", "one function"),
    ("a byte of a field", "cases case::feed_calendar; cases case::feed_query", "one function over the count"),
    ("a fault and a count", "contents walks::WalksRead; engine reporting::Written", "Result"),
    ("contents of a component", "contents read_event; contents read_block", "one function over the scope"),
    ("row of a UID", "series masters::is_master_of; series masters::is_named; series moved::named_second", "one function that answers an Option, or F"),
    ("search over the rows", "series masters::master_of; series masters::is_moved", "find and any over a range"),
    ("few and many, pieces", "event_pieces store_few; event_pieces store_many", "const N"),
    ("few and many, filter", "filter files::holds_few; filter files::holds_many", "const N"),
    ("with what is removed", "event_pieces store_instances; filter files::file_holds", "one function over F"),
    ("with the columns filled", "event_pieces store_left; filter files::holds_left; event_pieces store_few; filter files::holds_few", "one function over F"),
    ("ruled out, tried", "filter trials::ruled_out; filter trials::trial_of", "the range as Option<Period>"),
    ("index by size, report", "collecting collect_short; collecting collect_longest", "const N"),
    ("index by size, match", "engine matching::match_short; engine matching::match_longest", "const N"),
    ("from the index on", "collecting collect_indexed; engine matching::match_indexed; collecting collect_long; engine matching::match_long", "one walk over F"),
    ("from the structure on", "collecting collect_structured; engine matching::match_structured", "one walk over F"),
    ("from the contents on", "collecting collect_contents; engine matching::match_contents; collecting collect_excepted; engine matching::match_excepted", "one walk over F"),
    ("from the unfolded calendar on", "collecting collect_unfolded; engine matching::match_unfolded; collecting collect_calendar; engine matching::match_calendar", "one walk over F"),
    ("the call checked", "collecting collect; engine matches", "the ? operator on Result"),
    ("the first line that does not begin so", "worked answer_end; worked queries::query_end", "skip_while over the lines"),
    ("the name of an argument, and its file", "console file::file_at; console query::query_at", "one function over F"),
    ("the first bytes printed", "console out::print_words; loku print_first", "get(..n)"),
    ("a record of this component, of this property", "property_tests property_passes; property_tests parameters::parameter_passes", "one closure"),
    ("one of three cases", "contents alone::several_uids; contents alone::no_uid; contents alone::some_kinds", "== with the variant"),
    ("an identity with one more", "identities with_uid; identities with_recurrence; identities with_exceptions", "a field assigned"),
    ("month and day in any order", "zone_values zone_rule::dated; zone_values zone_rule::with_month; zone_values zone_rule::with_day", "match on the pair"),
    ("exports", "lokuwaine lokuwaine_match; lokuwaine_c lokuwaine_match", "the C interface"),
    ("exports of the report", "lokuwaine lokuwaine_report; lokuwaine_c lokuwaine_report", "the C interface"),
    ("block by block of the input", "batch batch::run_all; replay run; pairs run", "one function over F"),
    ("byte by byte of a block", "batch batch::run_block; replay run_block; pairs run_block", "one function over F, or fold"),
    ("lent buffers cut", "replay with_buffers; pairs read_back_in", "get(..n)"),
]

KEYWORDS = set("if else while loop for in return match let mut true false as fn pub break continue".split())
TOKEN = re.compile(r"b\"[^\"]*\"|b'[^']*'|\w+|[^\s\w]")


def shape(f):
    names, out = {}, []
    tokens = TOKEN.findall("(" + ",".join(f.params) + ")->" + f.result + "{" + f.body + "}")
    for t in tokens:
        if t in KEYWORDS:
            out.append(t)
        elif t[0].isdigit() or t.startswith(('b"', "b'")):
            out.append("0")
        elif re.match(r"\w", t):
            out.append(names.setdefault(t, "x%d" % len(names)))
        else:
            out.append(t)
    return " ".join(out), len(tokens)


def by_shape():
    groups = collections.defaultdict(list)
    for f in functions():
        key, n = shape(f)
        if 12 <= n:
            groups[key].append((f.crate, f.path))
    return [g for g in groups.values() if 1 < len(g)]


def twins():
    stand = {(f.crate, f.path) for f in functions()} | {(t.crate, t.path) for t in types()}
    groups = []
    for name, members, new in TWINS:
        members = [tuple(m.split()) for m in members.split("; ")]
        groups.append((name, [m for m in members if m in stand], new))
    groups = [g for g in groups if 1 < len(g[1])]
    known = [set(tuple(m.split()) for m in members.split("; ")) for _, members, _ in TWINS]
    for g in by_shape():
        g = [m for m in g if m not in NOT_2]
        if 1 < len(g) and not any(set(g) <= k for k in known):
            groups.append(("alike by form", g, "?"))
    return groups


def point2():
    order = {c: i for i, c in enumerate(crates())}
    for name, members, new in sorted(twins(), key=lambda g: min(order[c] for c, _ in g[1])):
        first = min(members, key=lambda m: order[m[0]])
        yield first[0], first[1], "%s (%d): %s -> %s" % (name, len(members), "; ".join(" ".join(m) for m in members), new)


def second2():
    groups = by_shape()
    print("  second way: functions equal up to names and constants: %d groups, %d functions" % (len(groups), sum(map(len, groups))))
    forms = collections.defaultdict(list)
    for t in types():
        if t.kind == "enum":
            key = "enum " + "|".join("V(%d)" % (p.count(",") + 1) if "(" in p else "V" for p in t.parts)
        else:
            key = "struct " + ",".join(re.sub(r".*?:", "", p).strip() for p in t.parts)
        forms[key].append(t.crate + " " + t.path)
    same = {k: v for k, v in forms.items() if 1 < len(v)}
    print("  second way: types of the same form: %d groups, %d types" % (len(same), sum(map(len, same.values()))))
    for k, v in same.items():
        print("    " + k + ": " + "; ".join(v))
    print("  second way: members of the groups listed: %d" % sum(len(m) for _, m, _ in twins()))
    known = [set(tuple(m.split()) for m in members.split("; ")) for _, members, _ in TWINS]
    rows = []
    for f in functions():
        tokens = ["x" if re.match(r"\w", w) and w not in KEYWORDS and not w[0].isdigit() else w for w in TOKEN.findall(f.result + "{" + f.body + "}")]
        if 30 <= len(tokens):
            rows.append((len(tokens), f.crate, f.path, tokens))
    rows.sort(key=lambda r: r[:3])
    alike = []
    for i, a in enumerate(rows):
        for b in rows[i + 1:]:
            if a[0] * 1.2 < b[0]:
                break
            pair = {a[1:3], b[1:3]}
            if any(pair <= k for k in known) or pair & NOT_2:
                continue
            match = difflib.SequenceMatcher(None, a[3], b[3], False)
            if 0.93 <= match.quick_ratio() and 0.9 <= match.ratio():
                alike.append("%s %s ~ %s %s" % (a[1:3] + b[1:3]))
    print("  second way: pairs of functions alike in nine tokens of ten and in no group: %d: %s" % (len(alike), "; ".join(alike)))


# ---------------------------------------------------------------- 3. loops

LOOP = re.compile(r"^\s*(?:'\w+: )?(while\b.*|loop) \{", re.M)


def point3():
    for f in functions():
        for m in LOOP.finditer(f.body):
            yield f.crate, f.path, m.group(1)


def second3():
    steps = 0
    for f in functions():
        if re.search(r"(\w+) \+= \d+;|(\w+) -= \d+;|\b(\w+) = (k|z|next|more|\3 \+ 1);", f.body):
            steps += 1
    words = sum(len(re.findall(r"\bwhile\b|\bloop\b", re.sub(r'"[^"]*"', "", text))) for _, _, text in sources())
    fors = sum(len(re.findall(r"^\s*(?:'\w+: )?for \b", text, re.M)) for _, _, text in sources())
    print("  second way: functions that step a count by hand: %d; words `while` and `loop` outside comments and texts: %d; `for` loops beside them: %d" % (steps, words, fors))
    print("  second way: chains and library methods in place of loops: %d" % sum(len(re.findall(r"\.(iter|all|any|position|zip|map|filter|fold|copy_from_slice|copy_within|fill|starts_with|contains|eq_ignore_ascii_case)\(", text)) for _, _, text in sources()))


# ---------------------------------------------------------------- 4. equality, order, copying, conversion, printing

BY_HAND = [
    # equality and order
    ("ascii", "same_byte", r"upper", "equality: eq_ignore_ascii_case"),
    ("ascii", "same_name", r"while", "equality: eq_ignore_ascii_case of slices"),
    ("text", "lesser", "", "order: min"),
    ("line", "scan::is_ending", r"match", "equality with a variant: =="),
    ("values", "time_lists::kind_number", "", "equality: derive(PartialEq)"),
    ("values", "time_lists::same_kind", "", "equality: =="),
    ("property", "is_start", r"match", "equality with a variant: =="),
    ("zone_values", "zone_rule::is_yearly", r"match", "equality with a variant: =="),
    ("table", "lesser_of", "", "order: min"),
    ("table", "greater_of", "", "order: max"),
    ("values", "period::is_period", r"match", "equality with a variant: is_some"),
    ("report", "heads::begins_with", r"while", "equality of bytes: starts_with"),
    ("events", "properties::time_given", r"match", "equality with a variant: is_some"),
    ("events", "properties::duration_given", r"match", "equality with a variant: is_some"),
    ("events", "properties::rule_given", r"match", "equality with a variant: is_some"),
    ("events", "properties::status_given", r"match", "equality with a variant: is_some"),
    ("events", "properties::transparency_given", r"match", "equality with a variant: is_some"),
    ("series", "beside::has_master", r"match", "equality with a variant: is_some"),
    ("events", "rules::kind_number", "", "equality: derive(PartialEq)"),
    ("events", "rules::same_kind", "", "equality: =="),
    ("events", "rules::is_date", "", "equality with a variant: =="),
    ("overrides", "same_kind", "", "equality: =="),
    ("overrides", "has_rule", r"match", "equality with a variant: !="),
    ("pieces", "storing::greater", "", "order: max"),
    ("pieces", "storing::lesser", "", "order: min"),
    ("series", "uids::same_bytes", r"while", "equality of bytes: =="),
    ("series", "uids::is_uid", r"match", "equality with a variant: == or matches!"),
    ("contents", "alone::several_uids", r"match", "equality with a variant: =="),
    ("contents", "alone::no_uid", r"match", "equality with a variant: =="),
    ("contents", "alone::some_kinds", r"match", "equality with a variant: !="),
    ("demands", "lesser", "", "order: min"),
    ("demands", "same_bytes", "", "equality of bytes: =="),
    ("worked", "lines::starts_with", r"while", "equality of bytes: starts_with"),
    ("worked", "lines::same", "", "equality of bytes: =="),
    # copying
    ("text", "copy_run", r"while", "copy: copy_from_slice"),
    ("time", "writing::put_bytes", r"while", "copy: copy_from_slice"),
    ("zones", "rows::put_row", r"while", "copy: copy_from_slice"),
    ("seconds", "merging::copy_part", r"while", "copy: copy_from_slice"),
    ("table", "move_left", r"while", "copy: copy_within"),
    ("table", "move_right", r"while", "copy: copy_within"),
    ("structure", "rows::put_row", r"while", "copy: copy_from_slice"),
    ("events", "rows::put_row", r"while", "copy: copy_from_slice"),
    ("identities", "rows::put_row", r"while", "copy: copy_from_slice"),
    ("series", "removed::store_seconds", r"while", "copy: copy_from_slice"),
    ("values", "rule::with_limit", r"interval: p\.interval", "a struct put together again: a field assigned"),
    ("time", "duration::with_digit", r"days: r\.days", "a struct put together again: a field assigned"),
    ("time", "duration::finish", r"days: r\.days", "a struct from a struct: a method or From"),
    ("zone_properties", "part::with_value", r"from,\s*to", "a struct put together again: a field assigned"),
    ("zone_properties", "part::by_rule", r"month: x\.month", "a struct from a struct: the rule held as it is"),
    ("zone_values", "zone_rule::with_day", r"others: d\.others", "a struct from a struct: the day held as it is"),
    ("events", "properties::with_span", r"span,", "a struct put together again: a field assigned"),
    ("events", "properties::with_busy", r"busy,", "a struct put together again: a field assigned"),
    ("events", "properties::with_start", r"lasts,", "a struct put together again: a field assigned"),
    ("events", "properties::with_end", r"lasts,", "a struct put together again: a field assigned"),
    ("events", "properties::with_lasts", r"end,", "a struct put together again: a field assigned"),
    ("events", "properties::with_repeats", r"busy,", "a struct put together again: a field assigned"),
    ("events", "properties::with_status", r"transparency,", "a struct put together again: a field assigned"),
    ("events", "properties::with_transparency", r"status,", "a struct put together again: a field assigned"),
    ("identities", "with_uid", r"recurrence,", "a struct put together again: a field assigned"),
    ("identities", "with_recurrence", r"uid,", "a struct put together again: a field assigned"),
    ("identities", "with_exceptions", r"uid,", "a struct put together again: a field assigned"),
    ("contents", "linking::put_identity", r"uid,", "a struct from a struct: From or the identity held as it is"),
    ("pairs", "passed", r"any: s\.any", "a struct put together again: a field assigned"),
    # conversion
    ("ascii", "is_digit", r"48 <= b", "library's own: is_ascii_digit"),
    ("ascii", "is_letter", r"65 <= b", "library's own: is_ascii_alphabetic"),
    ("ascii", "upper", r"b - 32", "conversion: to_ascii_uppercase"),
    ("search", "wide", "", "conversion: usize::from"),
    ("seconds", "wide", "", "conversion: u64::from"),
    ("fingerprints", "wide", "", "conversion: u64::from"),
    ("fingerprints", "word", r"16777216", "conversion: u32::from_le_bytes"),
    ("query", "fields::number4", r"\* 256", "conversion: u32::from_be_bytes"),
    ("query", "fields::number8", r"4294967296", "conversion: u64::from_be_bytes"),
    ("index", "wide", "", "conversion: as usize, usize::try_from"),
    ("periods", "report_place", "", "conversion: From"),
    ("values", "times::form_named", "", "conversion: TryFrom<&[u8]>"),
    ("values", "rule::frequency_part", r"same_name", "conversion: TryFrom<&[u8]>"),
    ("property", "event_property", r"same_name", "conversion: from its name by one table or TryFrom"),
    ("property", "event_of_five", r"same_name", "conversion: from its name by one table or TryFrom"),
    ("property", "event_of_six", r"same_name", "conversion: from its name by one table or TryFrom"),
    ("property", "free_busy_property", r"same_name", "conversion: from its name by one table or TryFrom"),
    ("zone_properties", "part_property", r"is_called", "conversion: from its name by one table or TryFrom"),
    ("values", "rule::interval_by", "", "conversion: ? or From"),
    ("values", "rule::count_by", "", "conversion: ? or From"),
    ("values", "rule::until_by", "", "conversion: ? or From"),
    ("values", "times::at_second", "", "conversion: map, ?"),
    ("property", "status_named", "", "conversion: From<&[u8]>"),
    ("property", "busy_named", "", "conversion: From<&[u8]>"),
    ("property", "timed", "", "conversion: map, ?"),
    ("property", "recurrence_by", "", "conversion: map, ?"),
    ("property", "exceptions_by", "", "conversion: map, ?"),
    ("property", "duration_by", "", "conversion: map, ?"),
    ("property", "rule_value", "", "conversion: map, ?"),
    ("zone_properties", "onset_by", "", "conversion: map, ?"),
    ("zone_properties", "from_by", "", "conversion: map, ?"),
    ("zone_properties", "to_by", "", "conversion: map, ?"),
    ("zone_properties", "rule_by", "", "conversion: map, ?"),
    ("zone_values", "zone_rule::weekday_of", "", "conversion: TryFrom<&[u8]>"),
    ("zone_values", "zone_rule::later_weekday", "", "conversion: the same TryFrom"),
    ("structure", "rows::wide", "", "conversion: as usize"),
    ("structure", "rows::kind_of", "", "conversion: From<&[u8]>"),
    ("property_tests", "texts::collation_of", "", "conversion: From or TryFrom"),
    ("cli", "arguments::command_of", "", "conversion: TryFrom<&[u8]>"),
    ("cli", "arguments::in_limits", "", "conversion: none needed with Option"),
    ("cli", "arguments::with_sign", "", "conversion: ? or and_then"),
    ("events", "rows::ending_numbers", "", "conversion: From"),
    ("events", "rows::repeat_numbers", "", "conversion: From"),
    ("events", "rows::bound_numbers", "", "conversion: From"),
    ("events", "rows::kind_of", "", "conversion: TryFrom"),
    ("events", "rows::ending_of", "", "conversion: TryFrom"),
    ("events", "rows::repeat_of", "", "conversion: TryFrom"),
    ("events", "rows::busy_of", "", "conversion: TryFrom"),
    ("events", "rows::bound_of", "", "conversion: TryFrom"),
    ("calendar", "faults::structure_fault", "", "conversion: From of an error enum"),
    ("calendar", "faults::broken_else", "", "conversion: Result::or, and"),
    ("calendar", "faults::fault_by", "", "conversion: From of an error enum, ?"),
    ("identities", "rows::kind_tag", "", "conversion: From"),
    ("identities", "rows::kinds_tag", "", "conversion: From"),
    ("identities", "rows::uid_numbers", "", "conversion: From"),
    ("identities", "rows::recurrence_numbers", "", "conversion: From"),
    ("identities", "rows::kind_of", "", "conversion: TryFrom"),
    ("identities", "rows::kinds_of", "", "conversion: TryFrom"),
    ("identities", "rows::uid_of", "", "conversion: TryFrom"),
    ("identities", "rows::recurrence_of", "", "conversion: TryFrom"),
    ("identities", "rows::wide", "", "conversion: as usize"),
    ("series", "beside::wide", "", "conversion: u64::from"),
    ("series", "columns::wide", "", "conversion: as usize"),
    ("engine", "answer_by", "", "conversion: From, or Result itself"),
    ("vectors", "calendars::wide", "", "conversion: u64::from"),
    ("replay", "adler::wide", "", "conversion: u64::from"),
    ("lokuwaine", "verdict_value", "", "conversion: u64::from(bool)"),
    ("lokuwaine", "spread_of", "", "conversion: From<Answer>"),
    ("worked", "kind::by_word", "", "conversion: From<&[u8]>"),
    # printing
    ("cli", "words::meaning", "", "printing: Display of the refusal"),
    ("console", "fault_line::hex_digit", "", "printing: {:02x}"),
    ("console", "fault_line::print_byte", "", "printing: {:02x}"),
    ("console", "out::print_reason", "", "printing: Display of the error"),
    ("console", "out::usage", r"print\(", "printing: println!"),
    ("console", "out::wrong", r"print\(", "printing: println!"),
    ("console", "out::wrong_word", r"print\(", "printing: println!"),
    ("vectors", "lines::show_value", r"print\(", "printing: print!"),
    ("vectors", "lines::show_parts", r"print\(", "printing: print!"),
    ("vectors", "lines::show_check", r"print\(", "printing: print!, Display of the error"),
    ("vectors", "answer_line", r"print\(", "printing: println!"),
    ("batch", "batch::print_report", r"print\(", "printing: print!"),
    ("worked", "answer::put_line", r"put\(", "printing: write!"),
    ("worked", "compare", r"print\(", "printing: println!"),
    ("pairs", "read_back", r"print\(", "printing: println!"),
    ("pairs", "compare", r"print\(", "printing: println!"),
    ("console", "out::refused", "", "printing: println! with Display"),
    ("console", "out::unreadable", "", "printing: println! with Display"),
    ("cases", "out::print_unreadable", "", "printing: println!"),
    ("vectors", "calendars::show_fault", "", "printing: Display"),
    ("vectors", "times::show_kind", "", "printing: Display"),
    ("vectors", "times::show_second", "", "printing: Display"),
    ("vectors", "times::show_duration", "", "printing: Display"),
    ("vectors", "lines::show_bad", "", "printing: print!"),
    ("batch", "batch::print_counts", "", "printing: println!"),
    ("batch", "batch::print_verdict", "", "printing: Display of the answer"),
    ("batch", "batch::print_line", "", "printing: print!"),
    ("batch", "batch::print_pair", "", "printing: print!"),
    ("replay", "print_answer", "", "printing: Display of the answer"),
    ("replay", "print_sums", "", "printing: print!"),
    ("worked", "out::malformed", "", "printing: println!"),
    ("worked", "answer::put_number", "", "printing: write! of the number"),
    ("worked", "answer::put_place", "", "printing: write!"),
    ("worked", "answer::put_refusal", "", "printing: Display of the refusal"),
    ("pairs", "print_line", "", "printing: print!"),
    ("pairs", "print_answer", "", "printing: Display of the answer"),
    ("loku", "verify::print_check", "", "printing: println!"),
]


def point4():
    order = {c: i for i, c in enumerate(crates())}
    return sorted(named(BY_HAND), key=lambda r: order[r[0]])


def second4():
    """Functions by the form of their body, and those of them that the table does not name."""
    known = {(c, p) for c, p, _, _ in BY_HAND} | {(c, p) for c, p, _ in point1()}
    sorts = collections.defaultdict(list)
    for f in functions():
        body = " ".join(f.body.split())
        arms = re.findall(r"=> ([^,{}]+)[,}]", body)
        if re.fullmatch(r"\(?\w+ as \w+\)?", body):
            sorts["only a cast"].append(f)
        elif body.startswith("match ") and 2 <= len(arms) and set(a.strip() for a in arms) <= {"true", "false"}:
            sorts["a variant asked for by match"].append(f)
        elif re.fullmatch(r"if (\w+) < (\w+) \{ (return )?\w+;? \}( else \{ \w+ \}| \w+)", body):
            sorts["the lesser or the greater"].append(f)
        elif 2 <= len(re.findall(r"same_name\([^()]*(?:\([^()]*\))?[^()]*b\"", body)) and f.result not in ("bool",):
            sorts["an enum from its name"].append(f)
        elif re.search(r"while [^{]*\{ \w+\[[^\]]*\] = \w+\[[^\]]*\]; \w+ [+-]= 1; \}", body):
            sorts["bytes copied one by one"].append(f)
        elif re.search(r"\w+\[[^\]]*\] != \w+\[[^\]]*\]", body):
            sorts["bytes compared one by one"].append(f)
        elif 3 <= len(re.findall(r"\b(?:print|print_number|put)\(", body)):
            sorts["printed piece by piece"].append(f)
    for sort, fs in sorts.items():
        print("  second way: %s: %d; not in the table: %s" % (sort, len(fs), "; ".join("%s %s" % (f.crate, f.path) for f in fs if (f.crate, f.path) not in known) or "none"))


def second7():
    """Functions in which three arms or more call each another function."""
    known = {(c, p) for c, p, _, _ in SWITCHES}
    rows = []
    for f in functions():
        calls = set(re.findall(r"=> (?:Ok\()?([a-z_:]+)\(", f.body))
        if 3 <= len(calls):
            rows.append("%s %s (%d%s)" % (f.crate, f.path, len(calls), "" if (f.crate, f.path) in known else ", not in the table"))
    print("  second way: functions with three arms or more that call another function each: %d: %s" % (len(rows), "; ".join(rows)))


# ---------------------------------------------------------------- 5. what travels together

def groups_of_parameters():
    """Sequences of three parameters or more, of the same names and types, in three functions or more: the one that spares most first, and what it covers goes."""
    left = [[f, list(f.params)] for f in functions()]
    out = []
    while True:
        seen = collections.defaultdict(set)
        for n, (f, ps) in enumerate(left):
            for i in range(len(ps)):
                for j in range(i + 3, len(ps) + 1):
                    run = tuple(ps[i:j])
                    if all(p and ":" in p for p in run):
                        seen[run].add(n)
        seen = {k: v for k, v in seen.items() if 3 <= len(v)}
        if not seen:
            return out
        best = max(seen, key=lambda k: ((len(k) - 1) * len(seen[k]), len(k), k))
        for n in seen[best]:
            ps = left[n][1]
            for i in range(len(ps) - len(best) + 1):
                if tuple(ps[i:i + len(best)]) == best:
                    ps[i:i + len(best)] = [""]
                    break
        out.append((best, [left[n][0] for n in sorted(seen[best])]))


def facts():
    """Clauses about the arguments alone that stand in the contracts of three functions or more."""
    seen = collections.defaultdict(dict)
    for f in functions():
        for kind, clause in f.clauses:
            for part in clause.split(" × "):
                part = part.strip()
                while part.startswith("(") and part.endswith(")") and part[1:-1].count("(") == part[1:-1].count(")") and ")" not in part[1:-1].split("(")[0]:
                    part = part[1:-1].strip()
                part = re.sub(r"\.(old|new)\b", ".now", part)
                if not re.search(r"\bresult\b", part):
                    seen[part][f.crate, f.path] = f
    return [(k, list(v.values())) for k, v in seen.items() if 3 <= len(v)]


def point5():
    order = {c: i for i, c in enumerate(crates())}
    rows = []
    for run, fs in groups_of_parameters():
        low = min(fs, key=lambda f: order[f.crate])
        rows.append((low.crate, low.path, "parameters in %d functions of %s: %s" % (len(fs), ", ".join(sorted({f.crate for f in fs}, key=order.get)), ", ".join(run))))
    for fact, fs in facts():
        low = min(fs, key=lambda f: order[f.crate])
        rows.append((low.crate, low.path, "fact in %d functions of %s: %s" % (len(fs), ", ".join(sorted({f.crate for f in fs}, key=order.get)), fact)))
    return sorted(rows, key=lambda r: (order[r[0]], r[2].split(" ")[0], -int(r[2].split(" in ")[1].split()[0])))


# ---------------------------------------------------------------- 6. buffers, parallel arrays, searches, arenas

STORES = [
    ("zones", "rows::part_at", "", "rows of 8 numbers for the parts of a zone: a slice of structs"),
    ("query", "fields::component_at", "", "records of bytes in the query: the query's own form, read into structs"),
    ("seconds", "seek", r"while", "sorted list searched by hand: binary_search"),
    ("fingerprints", "is_new", r"while", "list searched by hand: contains on the part"),
    ("index", "line_at", r"131072", "place and length packed in one number: a struct, or two halves by a type"),
    ("table", "skip", r"while", "sorted list searched by hand: partition_point"),
    ("table", "Table", r"count: usize", "count beside two columns: the table owns its slices"),
    ("structure", "rows::next_row", "", "arena of rows with indices for a tree: typed rows"),
    ("structure", "items::item_at", "", "arena of rows walked by indices: an iterator"),
    ("events", "rows::event_at", "", "rows of 12 numbers for events: a slice of structs"),
    ("identities", "rows::link_at", "", "rows of 8 numbers for links: a slice of structs"),
    ("pieces", "storing::put_piece", "", "three numbers a piece: a slice of structs"),
    ("series", "columns::gone_at", "", "places beside what they cut: an iterator of slices"),
    ("series", "beside::is_among", r"while", "list searched by hand: contains"),
    ("series", "masters::master_of", r"while", "list searched by hand: find over a range"),
    ("series", "prints::fill_prints", "", "three parallel columns: a slice of structs or one struct"),
    ("cases", "case::Case", r"cal: usize", "lengths beside the buffers: String or Vec of the program"),
    ("batch", "batch::Tally", r"n: usize", "length beside the name's buffer: Vec"),
    ("worked", "example::Example", r"length: usize", "lengths beside the buffers: Vec, &str"),
]
# A place, a line's or a row's number, or the length of a line's name (that one counts in point 5), not how much of the buffer is in use.
NOT_6 = {("query", "place::behind_texts"), ("line", "read::parameter_value"), ("property_tests", "line_holds"), ("console", "fault_line::show_line"),
         ("series", "uids::uid_at"), ("filter", "components::some_component_named"), ("filter", "components::component_holds")}
COUNT = r"(?:n|count|many|held|first)"


def point6():
    order = {c: i for i, c in enumerate(crates())}
    rows = list(named(STORES))
    for f in functions():
        names = {p.split(":")[0].strip(): p.split(":", 1)[1].strip() for p in f.params if ":" in p}
        arrays = [n for n, t in names.items() if re.match(r"&(?:'\w+ )?(?:mut )?\[", t)]
        if "starts" in arrays and "ends" in arrays:
            rows.append((f.crate, f.path, "parallel arrays starts and ends: one slice of periods, or a struct of both"))
        text = ", ".join(f.params)
        m = re.search(r"(\w+): &(?:'\w+ )?(?:mut )?\[[^\]]*\], (%s): usize" % COUNT, text)
        program = f.crate in ("console", "batch", "loku", "pairs", "demands", "vectors") and re.search(r"(\w+): &(?:mut )?\[u8\], (n|k): usize", text)
        m = m or program
        if m and (m.group(1) == "line" or (f.crate, f.path) in NOT_6):
            m = None
        if m and not ("starts" in arrays and "ends" in arrays):
            rows.append((f.crate, f.path, "buffer with a length beside: %s, %s" % (m.group(1), m.group(2))))
        fixed = re.findall(r"let (?:mut )?(\w+) = \[\d+u\d+; (\d+)\]", f.body)
        if fixed:
            rows.append((f.crate, f.path, "fixed buffers: " + ", ".join("%s %s" % x for x in fixed)))
    return sorted(rows, key=lambda r: order[r[0]])


# ---------------------------------------------------------------- 7. switches on a step

SWITCHES = [
    ("text", "fold", r"match c", "the collation asked at each byte: a type parameter or F: Fn(u8) -> u8"),
    ("line", "split::find", r"quoting: bool", "flag for one of two searches: const parameter or F"),
    ("values", "rule::named_part", r"same_name", "name to reader of a part"),
    ("property", "value_as", r"match property", "property to reader of its value"),
    ("property", "time_value", r"start: bool", "flag for which value is made: F: Fn(Time) -> PropertyValue"),
    ("zone_properties", "value_as", r"match property", "property to reader of its value"),
    ("zone_values", "zone_rule::zone_part", r"begins", "name to reader of a part"),
    ("contents", "read_entry", r"match rows", "number of a kind to reader of an entry"),
    ("event_pieces", "store_instances", r"store_few", "size to buffers: const N, closure"),
    ("filter", "files::file_holds", r"holds_few", "size to buffers: const N, closure"),
    ("filter", "trials::first_tried", r"match t", "kind of trial to its steps (with goes_on, passes): closures"),
    ("collecting", "collect_unfolded", r"collect_short", "size to buffers: const N, closure"),
    ("collecting", "collect_contents", r"collect_excepted", "size to buffers: const N, closure"),
    ("engine", "matching::match_unfolded", r"match_short", "size to buffers: const N, closure"),
    ("engine", "matching::match_contents", r"match_excepted", "size to buffers: const N, closure"),
    ("cli", "hex::step_of", r"match p", "state to step"),
    ("cases", "case::feed", r"match field", "number of a field to its reader"),
    ("cases", "case::keep_number", r"match field", "number of a field to where it is kept"),
    ("vectors", "answer", r"match kind", "byte to what is asked"),
    ("batch", "batch::verdict", r"asked: bool", "flag for a step that may be left out: Option<&[u8]>"),
    ("worked", "step", r"match kind", "kind of line to its step"),
    ("worked", "inner_line", r"match kind", "kind of line to its step"),
    ("worked", "ask", r"match kind", "kind of question to its step"),
    ("worked", "answer::put_answer", r"match a", "kind of answer to what is put: Display"),
    ("worked", "answer::put_report", r"whole: bool", "flag for which lines are put: F: Fn(&[u8]) -> bool"),
    ("loku", "run", r"match command", "command to its program"),
]


def point7():
    order = {c: i for i, c in enumerate(crates())}
    rows = list(named(SWITCHES))
    for crate, module, text in sources():
        for m in re.finditer(r"\[\s*(?:for<[^>]*> )?fn\(|: fn\(|\bdyn\b", text):
            rows.append((crate, module + "?", "table of functions or pointer: " + m.group(0)))
    return sorted(rows, key=lambda r: order[r[0]])


# ---------------------------------------------------------------- 8. proofs

def proofs():
    for crate in crates():
        base = os.path.join(ROOT, "crates", crate, "proofs")
        for path in sorted(glob.glob(os.path.join(base, "**", "*.antt"), recursive=True)):
            with open(path, encoding="utf-8") as file:
                yield crate, os.path.relpath(path, base)[:-5].replace(os.sep, "::"), file.read()


DECLARED = re.compile(r"^(?:abbrev )?(pub )?([^\s:(){}]+) : (.*?)(?=^\2 |^unfold|^\2$)", re.M | re.S)


def lemmas():
    """Statements of the files of proofs/ that are no answers: (crate, file, name, is it pub, statement)."""
    for crate, name, text in proofs():
        if name.split("::")[-1] in ("Answers", "Invariants", "Lib", "Examples", "Reading"):
            continue
        text = re.sub(r"^\s*--.*$", "", text, flags=re.M)
        for m in DECLARED.finditer(text):
            yield crate, name, m.group(2), bool(m.group(1)), " ".join(m.group(3).split())


def answers():
    for crate, name, text in proofs():
        if name.split("::")[-1] != "Answers":
            continue
        text = re.sub(r"^\s*--.*$", "", text, flags=re.M)
        goals = re.findall(r"^(?:pub )?(\S+) : \S*goal\.\S+", text, re.M)
        for goal in goals:
            m = re.search(r"^%s( .*?)=(.*?)(?=^\S|\Z)" % re.escape(goal), text.split(": goal." + goal, 1)[-1], re.M | re.S)
            yield crate, name, goal, " ".join(m.group(2).split()) if m else ""


WORD = re.compile(r"[^\s(){}\[\].;,@\"«»:]+")
# Statements that are word for word a lemma of the library, which `rt lemma` shows.
LIBRARY = [
    ("ascii", "Bools::and_left", "first of Lib.Pointwise"),
    ("ascii", "Bools::and_right", "second of Lib.Pointwise"),
    ("ascii", "Bools::and_both", "and_from of std lemmas.Bool"),
    ("ascii", "Bools::clash", "clash of Borrow.Author.Clash"),
    ("ascii", "Bools::or_neither", "or_from of std lemmas.Bool"),
    ("ascii", "Bools::not_so", "false_from_ne_true of std lemmas.Bool"),
    ("zones", "PartRows::apart", "strict of core cmp.Tests, or omega"),
    ("periods", "Periods::below_or_not", "below_or_not of core slice.sort.Windows"),
    ("line", "Grammar::none_of", "or_from of std lemmas.Bool"),
    ("line", "Splitting::not_cut", "not-true of Borrow.Author.Tests"),
    ("line", "Splitting::closed_quotes", "not-true of Borrow.Author.Tests"),
    ("query_check", "QueryRules::either", "or_cases of core cmp.Tests"),
    ("query_check", "QueryRules::or_first", "or_left of std lemmas.Bool"),
    ("query_check", "QueryRules::or_second", "or_right of std lemmas.Bool"),
    ("index", "Index::inside_index", "within_of_byte of core dec2flt.DigitsLemmas"),
    ("events", "EntryRows::apart", "strict of core cmp.Tests, or omega"),
    ("identities", "LinkRows::apart", "strict of core cmp.Tests, or omega"),
    ("demands", "PairedCalls::eqb_suc", "eqb-suc-suc of Lib.Dec"),
]


def alpha(statement):
    """The statement with its variables named by their order."""
    names = []
    for m in re.finditer(r"[({]([^\s(){}:][^(){}:]*?) : ", statement):
        names += [w for w in m.group(1).split() if w not in names]
    names += [m.group(1) for m in re.finditer(r"λ ([^\s().]+)\.", statement) if m.group(1) not in names]
    for i, w in enumerate(names):
        statement = re.sub(r"(?<![^\s(){}\[\].,])" + re.escape(w) + r"(?![^\s(){}\[\].,])", "v%d" % i, statement)
    return statement.replace("{", "(").replace("}", ")")


def point8():
    """Answers (each is to be tried without), answers that stand again and again, and lemmas that the library has, that stand twice or that nothing cites."""
    order = {c: i for i, c in enumerate(crates())}
    rows = [(crate, name + "::" + goal, "answer") for crate, name, goal, _ in answers()]
    stand = {(c, n + "::" + l) for c, n, l, _, _ in lemmas()}
    rows += [(c, p, "lemma that the library has: " + new) for c, p, new in LIBRARY if (c, p) in stand]
    cited, heads, pages = collections.Counter(), collections.Counter(), ""
    texts = [text for _, _, text in proofs()]
    for path in glob.glob(os.path.join(ROOT, "crates", "*", "specs", "**", "*.antt"), recursive=True):
        with open(path, encoding="utf-8") as file:
            texts.append(file.read())
    for text in texts:
        cited.update(WORD.findall(re.sub(r"^\s*--.*$", "", text, flags=re.M)))
        heads.update(re.findall(r"^(?:pub )?([^\s:(){}]+)(?= )", text, re.M))
    for path in glob.glob(os.path.join(ROOT, "docs", "*.md")) + [os.path.join(ROOT, "README.md")]:
        with open(path, encoding="utf-8") as file:
            pages += file.read()
    stated = collections.defaultdict(list)
    for crate, name, lemma, public, statement in lemmas():
        if not statement.endswith("Type 0") and not re.search(r"→ (Bool|ℕ)$", statement):
            stated[alpha(statement)].append((crate, name, lemma))
        if cited[lemma] <= heads[lemma] and lemma not in pages and not lemma.startswith("example") and not name.startswith(("Example", "Reading")):
            rows.append((crate, name + "::" + lemma, "lemma that nothing cites and no page names"))
    for where in stated.values():
        if 1 < len(where):
            crate, name, lemma = min(where, key=lambda w: order[w[0]])
            rows.append((crate, name + "::" + lemma, "lemma that stands %d times: %s" % (len(where), "; ".join(" ".join(w) for w in where))))
    repeated = collections.Counter((c, b) for c, _, _, b in answers() if 40 <= len(b))
    rows += [(crate, "proofs", "the same answer %d times: %s" % (n, body[:110])) for (crate, body), n in repeated.items() if 3 <= n]
    return sorted(rows, key=lambda r: order[r[0]])


# ---------------------------------------------------------------- printing

TITLES = {1: "own Option and Result, flags, numbers for kinds and refusals", 2: "twins (groups)", 3: "while and loop", 4: "equality, order, copying, conversion, printing by hand",
          5: "parameters and facts that travel together", 6: "buffers, parallel arrays, searches, arenas", 7: "switches on a step", 8: "proofs"}


def main():
    global ROOT
    args = sys.argv[1:]
    listing, second = "--list" in args, "--second" in args
    points = [int(args[i + 1]) for i, a in enumerate(args) if a == "--point"] or list(TITLES)
    ROOT = next((a for i, a in enumerate(args) if not a.startswith("--") and (i == 0 or args[i - 1] != "--point")), ".")
    for n in points:
        rows = list(globals()["point%d" % n]())
        count = collections.Counter(r[0] for r in rows)
        print("point %d, %s: %d" % (n, TITLES[n], len(rows)))
        print("  by crate: " + ", ".join("%s %d" % (c, count[c]) for c in crates() if count[c]))
        kinds = collections.Counter(r[2].split(":")[0].split(" (")[0] for r in rows) if n in (1, 4, 6, 8) else {}
        short = collections.Counter()
        for kind, k in kinds.items():
            kind = re.sub(r"\d+", "N", kind)
            short[kind if n != 1 or kind.startswith(("enum", "flag", "refusals")) else "number for none, for a kind or a refusal"] += k
        if n in (1, 4, 6, 8):
            print("  by kind: " + ", ".join("%s %d" % x for x in short.most_common(12)))
        if n == 5:
            print("  by kind: " + ", ".join("%s %d" % x for x in collections.Counter(r[2].split()[0] for r in rows).items()))
        if listing:
            for crate, path, what in rows:
                if not (n == 8 and what == "answer"):
                    print("  %s %s: %s" % (crate, path, what))
        if second and "second%d" % n in globals():
            globals()["second%d" % n]()


main()
