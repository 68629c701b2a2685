//! Deliberate errors for the literal judgement, one per number; 0 is none. The first six are
//! those of document 01, "Errors an engineer would make here".

macro_rules! faults {
    ($($number:literal $name:ident $words:literal;)*) => {
        $(pub const $name: u32 = $number;)*
        pub const FAULTS: &[(u32, &str)] = &[$(($number, $words)),*];
    };
}

faults! {
    1 SKIP_EVERY_BLOCK "skip taken off every block";
    2 DUE_TOWARDS_ZERO "blocks due: t - D divided with rounding towards zero";
    3 FULL_LOAD_REFUSED "frame load equal to the frame is overload";
    4 SKIP_ROUNDED_UP "skip rounded up";
    5 SKIP_FROM_INPUT "skip worked out from the input's side";
    6 TOKENLESS_CYCLES "deadlock judged by the cycles that hold no token";
    7 LENGTH_ONLY_SHORT "1: more bytes than the length field says are let through";
    8 VERSION_UNCHECKED "2 never given";
    9 SEVEN_GRAPHS "3: eight graphs refused";
    10 NINE_GRAPHS "3: nine graphs let through";
    11 LEFT_OVER_IGNORED "4: what is left over after the last graph is ignored";
    12 LEFT_OVER_AT_LAST "4: left over has the last graph's place";
    13 REST_BEFORE_SIZE "4 for the rest of a graph comes before 5";
    14 CHANNELS_BELOW_64 "5: 64 channels refused";
    15 ACTORS_BELOW_32 "5: 32 actors refused";
    16 NO_ACTORS "5: actor count 0 is not refused as a size";
    17 TICKS_BELOW "6: a period of 10,000,000 refused";
    18 DEADLINE_NOUGHT "6: deadline 0 let through";
    19 TIME_BELOW "6: worst-case time 100,000 refused";
    20 RATE_BELOW "6: rate 4,096 refused";
    21 OUTPUT_AT_COUNT "6: an output number equal to the actor count let through";
    22 RATES_ONE_BYTE "rates read as one byte";
    23 TOKENS_ONE_BYTE "tokens read as one byte";
    24 TOKENS_SIGNED "tokens read as a signed number";
    25 FIRST_GRAPH_ONLY "6 to 11 asked of the first graph only";
    26 RANGE_OF_ALL_FIRST "6 asked of every graph before 7 of any";
    27 FRAME_BEFORE_GRAPHS "12 before 7 to 11";
    28 PLACE_FROM_ONE "places counted from 1";
    29 PLACE_NOUGHT "place always 0";
    30 REACH_FROM_INPUT_ONLY "7: only from the input";
    31 REACH_TO_OUTPUT_ONLY "7: only to the output";
    32 REACH_EITHER_WAY "7: channels followed against their direction too";
    33 BALANCE_BEFORE_REACH "8 before 7";
    34 REPETITION_BELOW "8: repetition number 4,096 refused";
    35 BALANCE_TREE_ONLY "8: channels that close a cycle are not compared";
    36 ONCE_INPUT_ONLY "9: output not looked at";
    37 ONCE_OUTPUT_ONLY "9: input not looked at";
    38 TOKENS_KEPT "10: firing removes no tokens";
    39 SINGLE_PASS "10: one pass, each actor fired as often as it can";
    40 INPUT_ALWAYS_ENABLED "10: channels into the input are ignored";
    41 SELF_LOOPS_IGNORED "10: self-loops are ignored";
    42 PARALLEL_MERGED "10: of parallel channels only the last counts";
    43 ENABLED_ABOVE "enabled only with more than the consume rate";
    44 RESTLESS_BEFORE_DEADLOCK "11 before 10";
    45 RESTLESS_INPUT "11: an enabled input counts";
    46 RESTLESS_ANY_CHANNEL "11: one channel with enough tokens enables";
    47 FRAME_PRODUCT "frame is the product of the periods";
    48 FRAME_GREATEST "frame is the greatest period";
    49 FRAME_BOUND_BELOW "12: frame 10,000,000 refused";
    50 LOAD_ROUNDED "load of one tick rounded before it is taken times the frame";
    51 LOAD_WITHOUT_REPETITION "load without repetition numbers";
    52 LATE_BEFORE_OVERLOAD "21 before 20";
    53 LATE_AT_EQUAL "21: demand equal to the length is late";
    54 FIRST_LENGTH_ONLY "21: only the first length at which demand rises";
    55 UP_TO_DEADLINES "21: no length above the greatest deadline";
    56 GREATEST_LATE "21: the greatest late length below the frame";
    57 DUE_AFTER_DEADLINE "blocks due: none at t = D";
    58 DUE_WITHOUT_ONE "blocks due: without plus 1";
    59 SKIP_ONE_ROUND "skips: each channel looked at once";
    60 SKIP_RATES_SWAPPED "skips: produce and consume swapped";
    61 SKIP_NONE "skips: all 0";
    62 FEWEST_NEGATIVE "fewest firings: a negative number is not taken as 0";
}
