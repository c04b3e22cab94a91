/* The wrong versions that bench/sandgusset.c holds when it is compiled with -DSANDGUSSET_VARIANTS.
 * VARIANT(name, what it does wrong); the first has number 1. TWIN names a mistake of the same list that here one call
 * makes alone, all others being right: sandgusset_order, its own name being ORDER_ and that one, or
 * sandgusset_replay_words, with WORDS_, or the four calls of the player, with PLAYER_. LETTERS is a mistake about output
 * letters that the verdict on a trace makes alone, with TRACE_ before its name, and the verdict on a table, with TABLE_. */
#ifndef SANDGUSSET_VARIANTS_H
#define SANDGUSSET_VARIANTS_H

#define SANDGUSSET_TWIN_LIST(TWIN, VARIANT) \
    TWIN(VARIANT, WHOLE_TICKS, "order: tests whole ticks only") \
    TWIN(VARIANT, NEIGHBOURS_ONLY, "order: tests neighbouring steps only, so another transition is the lowest") \
    TWIN(VARIANT, GREATEST_V_ONLY, "order: keeps for each state only the walk with greatest V") \
    TWIN(VARIANT, UNREACHABLE_JUDGED, "order: counts states that can't be reached") \
    TWIN(VARIANT, WRITES_ON_READ, "order: writes to a lent room when the file is refused") \
    TWIN(VARIANT, WRITES_ON_8, "order: writes to a room that is too short") \
    TWIN(VARIANT, D_IS_U, "order: takes D = U for overtaken") \
    TWIN(VARIANT, ROOM_ROUNDED_UP, "order: rounds room up to whole places") \
    TWIN(VARIANT, ROOM_WHEN_NEEDED, "order: asks for room only if something is to be shown") \
    TWIN(VARIANT, LENGTHS_32, "order: cuts lengths to 32 bits") \
    TWIN(VARIANT, K_FROM_0, "order: counts K and M from 0") \
    TWIN(VARIANT, EARLY_FROM_K, "order: begins the early steps at k") \
    TWIN(VARIANT, UNUSED_CLEARED, "order: clears places that the result doesn't use") \
    TWIN(VARIANT, HIGHEST_SHOWN, "order: shows the highest-numbered transition that can be overtaken") \
    TWIN(VARIANT, WAY_LEFT_OUT, "order: shows a trace that begins with k, not in the initial state") \
    TWIN(VARIANT, LENGTH_P_ONLY, "order: looks only at tables that have a trace of length p") \
    TWIN(VARIANT, SHORTCUT_BY_V, "order: takes d of k at most v + d of the next, for all neighbours, for enough") \
    TWIN(VARIANT, FEW_ROWS, "order: looks for lower sums up to 127 only") \
    TWIN(VARIANT, DELAYS_239, "order: doesn't look for D = 239") \
    TWIN(VARIANT, REACH_30, "order: finds states within 30 steps only") \
    TWIN(VARIANT, INITIAL_0, "order: takes state 0 for the initial state") \
    TWIN(VARIANT, STRICT_TO_ALL, "order: useless: says in order to all") \
    TWIN(VARIANT, REFUSES_ALL, "order: useless: refuses everything") \
    TWIN(VARIANT, FIXED_TRACE, "order: useless: says overtaken with a fixed trace")

#define SANDGUSSET_WORDS_TWIN_LIST(TWIN, VARIANT) \
    TWIN(VARIANT, RAW_GAPS, "words: a stamp below the one before is refused") \
    TWIN(VARIANT, RAW_ORDER, "words: orders by raw due times") \
    TWIN(VARIANT, RAW_DUE, "words: counts due times from stamp 0, not from the start") \
    TWIN(VARIANT, WRITES_ON_READ, "words: writes to a lent room when the file is refused") \
    TWIN(VARIANT, WRITES_ON_8, "words: writes to a room that is too short") \
    TWIN(VARIANT, WRITES_ON_9, "words: writes before all gaps of a word are tested") \
    TWIN(VARIANT, TIE_TO_LATER, "words: at equal due times the later step comes first") \
    TWIN(VARIANT, ODD_TRACE, "words: accepts a trace of odd length") \
    TWIN(VARIANT, ODD_STAMPS, "words: accepts stamps that are not a multiple of four bytes") \
    TWIN(VARIANT, ROOM_ROUNDED_UP, "words: rounds room up to whole places") \
    TWIN(VARIANT, ROOM_WHEN_NEEDED, "words: asks for room for responses only if a word is accepted") \
    TWIN(VARIANT, TAIL_ACCEPTED, "words: accepts bytes after the end record") \
    TWIN(VARIANT, STEPS_513, "words: accepts a trace of 513 steps") \
    TWIN(VARIANT, NOT_JOINED, "words: accepts a trace that is not joined") \
    TWIN(VARIANT, SEVEN_BEFORE_SIX, "words: tests 7 before 6") \
    TWIN(VARIANT, COUNTS_16, "words: cuts counts of places to 16 bits") \
    TWIN(VARIANT, LENGTHS_32, "words: cuts lengths to 32 bits") \
    TWIN(VARIANT, GAP_U_ACCEPTED, "words: accepts a gap of exactly u") \
    TWIN(VARIANT, GAP_V_REFUSED, "words: refuses a gap of exactly v") \
    TWIN(VARIANT, STEP_FROM_0, "words: counts steps from 0") \
    TWIN(VARIANT, LIKE_KEPT, "words: responses with like letters keep the order of their steps") \
    TWIN(VARIANT, UNUSED_CLEARED, "words: clears places that no word uses") \
    TWIN(VARIANT, REFUSES_ALL, "words: useless: refuses everything") \
    TWIN(VARIANT, REPLAY_WRITES_NOTHING, "words: useless: writes marks alone") \
    TWIN(VARIANT, FIRST_STEP_ONLY, "words: useless: orders each word's first step and copies the rest") \
    TWIN(VARIANT, EMPTY_TABLE_READ, "words: useless: always takes the empty table")

#define SANDGUSSET_PLAYER_TWIN_LIST(TWIN, VARIANT) \
    TWIN(VARIANT, WRITES_ON_READ, "player: writes to the records when the file is refused") \
    TWIN(VARIANT, WRITES_ON_8, "player: writes to a room that is too short") \
    TWIN(VARIANT, READS_AFTER, "player: reads the byte after the records") \
    TWIN(VARIANT, WRITES_BEFORE, "player: changes the byte before the configuration") \
    TWIN(VARIANT, STORES_IN_FILE, "player: stores in the file what it holds") \
    TWIN(VARIANT, ROOM_ROUNDED_UP, "player: rounds room up to whole records") \
    TWIN(VARIANT, NO_5, "player: doesn't test for repeated transitions") \
    TWIN(VARIANT, TRANSITION_257, "player: accepts a 257th transition") \
    TWIN(VARIANT, TAIL_ACCEPTED, "player: accepts bytes after the end record") \
    TWIN(VARIANT, LENGTHS_32, "player: cuts lengths to 32 bits") \
    TWIN(VARIANT, INITIAL_0, "player: takes state 0 for the initial state") \
    TWIN(VARIANT, UNREACHABLE_JUDGED, "player: takes a split that can't be reached for one") \
    TWIN(VARIANT, REACH_30, "player: finds states within 30 steps only") \
    TWIN(VARIANT, TOUCHING_SPLITS, "player: takes guards that only touch for overlapping") \
    TWIN(VARIANT, LIKE_ARRIVALS, "player: like outputs, arrivals and delays excuse a split") \
    TWIN(VARIANT, LIKE_OUTPUTS, "player: like outputs excuse a split") \
    TWIN(VARIANT, GAP_U_ACCEPTED, "player: takes a guard for open at exactly u") \
    TWIN(VARIANT, GAP_V_REFUSED, "player: takes a guard for closed at exactly v") \
    TWIN(VARIANT, STEP_FROM_0, "player: counts steps from 0") \
    TWIN(VARIANT, TIE_TO_LATER, "player: of several due responses issues that of the highest step") \
    TWIN(VARIANT, UNUSED_CLEARED, "player: clears the records beyond the waiting ones") \
    TWIN(VARIANT, REFUSES_ALL, "player: useless: refuses everything") \
    TWIN(VARIANT, EMPTY_TABLE_READ, "player: useless: always takes the empty table")

#define SANDGUSSET_LETTERS_LIST(LETTERS, VARIANT) \
    LETTERS(VARIANT, LIKE_COUNTED, "counts pairs with like letters") \
    LETTERS(VARIANT, BY_INPUT, "compares input letters") \
    LETTERS(VARIANT, INPUT_TELLS, "tells like outputs apart by their inputs") \
    LETTERS(VARIANT, BOTH_DIFFER, "counts only pairs that differ in input as well") \
    LETTERS(VARIANT, ONE_LETTER_ONLY, "counts pairs with like letters unless one is used throughout") \
    LETTERS(VARIANT, LEAST_PAIR, "takes the least pair, then looks at its letters") \
    LETTERS(VARIANT, LEAST_FIRST, "takes the least first step, then looks for an end with another letter") \
    LETTERS(VARIANT, LEAST_END, "takes the least end of each first step, then looks at its letter") \
    LETTERS(VARIANT, LEAST_SHOWN, "shows the least pair of any letters, once a pair that differs turns") \
    LETTERS(VARIANT, NEXT_LETTER, "compares the letters of k and of the step after it") \
    LETTERS(VARIANT, LAST_LETTER, "compares the letters of m and of the step before it") \
    LETTERS(VARIANT, LETTER_BETWEEN, "counts a pair with like letters if another letter comes between") \
    LETTERS(VARIANT, SEQUENCES, "compares the sequences of letters that the two words give, not the pair's letters") \
    LETTERS(VARIANT, SEVEN_BITS, "keeps seven bits of a letter") \
    LETTERS(VARIANT, NO_LETTER_0, "takes letter 0 for no response")

#define SANDGUSSET_VARIANT_LIST(VARIANT) \
    VARIANT(WHOLE_TICKS, "tests whole ticks only") \
    VARIANT(NEIGHBOURS_ONLY, "tests neighbouring steps only") \
    VARIANT(LEAST_U_ONLY, "keeps for each state only the walk with least U") \
    VARIANT(GREATEST_V_ONLY, "keeps for each state only the walk with greatest V") \
    VARIANT(UNREACHABLE_JUDGED, "judges states that can't be reached") \
    VARIANT(RAW_GAPS, "compares raw stamps across the wrap: a stamp below the one before is refused") \
    VARIANT(RAW_ORDER, "compares raw stamps across the wrap: orders by raw due times") \
    VARIANT(RAW_DUE, "counts due times from stamp 0, not from the start") \
    VARIANT(WRITES_ON_READ, "writes to a lent room when the file is refused") \
    VARIANT(WRITES_ON_8, "writes to a room that is too short") \
    VARIANT(WRITES_ON_9, "replay writes before all gaps are tested") \
    VARIANT(READS_BEFORE, "reads the byte before a room") \
    VARIANT(READS_AFTER, "reads the byte after a room") \
    VARIANT(WRITES_BEFORE, "changes the byte before a room") \
    VARIANT(STORES_IN_FILE, "stores in the file what it holds") \
    VARIANT(D_IS_U, "takes D = U for turning") \
    VARIANT(D_IS_V, "takes D = V for steady") \
    VARIANT(OVERTAKING_ONLY, "takes every pair with U < D for turning, whatever V is") \
    VARIANT(TIE_TO_LATER, "at equal due times the later step comes first") \
    VARIANT(ODD_TRACE, "accepts a trace of odd length") \
    VARIANT(ODD_STAMPS, "accepts stamps that are not a multiple of four bytes") \
    VARIANT(ROOM_ROUNDED_UP, "rounds room up to whole places") \
    VARIANT(ROOM_WHEN_NEEDED, "asks for room only if something is to be shown") \
    VARIANT(NO_5, "doesn't test for repeated transitions") \
    VARIANT(EQUAL_BUT_D, "takes transitions that differ only in d for equal") \
    VARIANT(TRANSITION_257, "accepts a 257th transition") \
    VARIANT(RANGE_BEFORE_257, "tests the range before the 257th transition") \
    VARIANT(LENGTH_BEFORE_KIND, "tests a record's length before its kind") \
    VARIANT(TAIL_ACCEPTED, "accepts bytes after the end record") \
    VARIANT(V_4096, "accepts v = 4,096") \
    VARIANT(STEPS_513, "accepts a trace of 513 steps") \
    VARIANT(NOT_JOINED, "accepts a trace that is not joined") \
    VARIANT(SEVEN_BEFORE_SIX, "tests 7 before 6") \
    VARIANT(COUNTS_16, "cuts counts of places to 16 bits") \
    VARIANT(LENGTHS_32, "cuts lengths to 32 bits") \
    VARIANT(READS_EMPTY, "reads four bytes where fewer are left") \
    VARIANT(GAP_U_ACCEPTED, "accepts a gap of exactly u") \
    VARIANT(GAP_V_REFUSED, "refuses a gap of exactly v") \
    VARIANT(STEP_FROM_0, "counts steps from 0 in replay") \
    VARIANT(K_FROM_0, "counts K and M from 0") \
    VARIANT(STEPS_UNNAMED, "names no steps in a trace verdict") \
    VARIANT(EARLY_FROM_K, "begins the early steps of the early word at k") \
    VARIANT(EARLY_AFTER_M, "goes on with early steps after m") \
    VARIANT(EARLY_AT_FIXED_PLACE, "writes the early word to a fixed place") \
    VARIANT(EARLY_FIRST, "writes the early word first") \
    VARIANT(UNUSED_CLEARED, "clears places that the result doesn't use") \
    VARIANT(TURNING_FIRST, "looks for turning before split") \
    VARIANT(HIGHEST_SHOWN, "shows the highest-numbered transition that turns") \
    VARIANT(WAY_LEFT_OUT, "shows a trace that begins with k, not in the initial state") \
    VARIANT(K_NOT_FIRST, "names a later place of the transition as K") \
    VARIANT(TOUCHING_SPLITS, "takes guards that only touch for overlapping") \
    VARIANT(SPLIT_TAKES_V_OF_I, "takes v of the first transition at the end of a split") \
    VARIANT(LIKE_ARRIVALS, "like outputs, arrivals and delays excuse a split") \
    VARIANT(LIKE_OUTPUTS, "like outputs excuse a split") \
    VARIANT(LENGTH_P_ONLY, "judges only tables that have a trace of length p") \
    VARIANT(SHORTCUT_BY_V, "takes d of k at most v + d of the next, for all neighbours, for enough") \
    VARIANT(FEW_ROWS, "looks for lower sums up to 127 only") \
    VARIANT(DELAYS_239, "doesn't look for D = 239") \
    VARIANT(REACH_30, "finds states within 30 steps only") \
    VARIANT(INITIAL_0, "takes state 0 for the initial state") \
    VARIANT(STRICT_TO_ALL, "useless: says strict or steady to all") \
    VARIANT(REFUSES_ALL, "useless: refuses everything") \
    VARIANT(FIXED_TRACE, "useless: says turning with a fixed trace") \
    VARIANT(REPLAY_WRITES_NOTHING, "useless: replay writes nothing") \
    VARIANT(FIRST_STEP_ONLY, "useless: replay orders the first step and copies the rest") \
    VARIANT(EMPTY_TABLE_READ, "useless: the reader always returns the empty table") \
    VARIANT(LIKE_KEPT, "replay: responses with like letters keep the order of their steps") \
    VARIANT(SHORT_SUMS, "keeps 16 bits of a sum of v, in ticks") \
    VARIANT(SHORT_PARTS, "keeps 16 bits of a sum of v, in 1/256 tick") \
    SANDGUSSET_LETTERS_LIST(SANDGUSSET_VARIANT_OF_TRACE, VARIANT) \
    SANDGUSSET_LETTERS_LIST(SANDGUSSET_VARIANT_OF_TABLE, VARIANT) \
    VARIANT(TABLE_QUICK_BY_LETTERS, "table: takes it for enough that no neighbour with another letter overtakes") \
    VARIANT(TABLE_ROWS_OF_OTHERS, "table: looks as far as the least delay of letters other than the quickest one's") \
    SANDGUSSET_TWIN_LIST(SANDGUSSET_VARIANT_OF_TWIN, VARIANT) \
    VARIANT(ORDER_LIKE_OUTPUTS, "order: like outputs excuse overtaking") \
    VARIANT(ORDER_LOWEST_UNLIKE, "order: shows the lowest transition that another letter overtakes, if one does") \
    VARIANT(ORDER_ROWS_BY_LETTERS, "order: looks only as far as pairs with unlike letters ask for") \
    VARIANT(ORDER_ASKS_V, "order: asks D <= V as well") \
    VARIANT(ORDER_ALWAYS_ONLY, "order: counts only pairs that always respond in reverse") \
    VARIANT(ORDER_U_FROM_K, "order: counts u of k in U") \
    VARIANT(ORDER_U_BEFORE_M, "order: leaves u of m out of U") \
    VARIANT(ORDER_SHORT_WALKS, "order: tries walks of at most 30 steps between k and m") \
    VARIANT(ORDER_LEAVES_INITIAL, "order: tries only transitions that leave the initial state") \
    VARIANT(ORDER_SPLIT_FIRST, "order: answers a split table as split") \
    VARIANT(ORDER_SPLIT_IN_ORDER, "order: takes a split table for in order") \
    VARIANT(ORDER_LOWEST_TURNING, "order: shows the lowest transition that turns, if one does") \
    VARIANT(ORDER_LOWEST_END, "order: shows the lowest transition that overtakes") \
    VARIANT(ORDER_LATE_WORD, "order: writes the late word") \
    VARIANT(ORDER_BOTH_WORDS, "order: writes both words as the judge does, where there is room") \
    VARIANT(ORDER_EARLY_ALWAYS, "order: takes u and 1/256 tick at every step") \
    VARIANT(ORDER_EARLY_U, "order: takes u without 1/256 tick at the early steps") \
    VARIANT(ORDER_FIRST_STAMP_0, "order: counts the word from its first step") \
    VARIANT(ORDER_K_LATER, "order: names K one more") \
    VARIANT(ORDER_NAMES_TRANSITIONS, "order: names the numbers of transitions, not of steps") \
    VARIANT(ORDER_STEPS_UNNAMED, "order: names no steps") \
    VARIANT(ORDER_STATUS_257, "order: answers with the status of turning") \
    VARIANT(ORDER_GOES_ON, "order: shows a step after M") \
    VARIANT(ORDER_GOES_ROUND, "order: goes round once, so that K is not the first place of its transition") \
    VARIANT(ORDER_LONG_WAY, "order: shows more than 270 steps where more is lent") \
    VARIANT(ORDER_WALK_LEFT_OUT, "order: shows m right after k") \
    VARIANT(ORDER_WRITES_IN_ORDER, "order: writes a trace place though all is in order") \
    VARIANT(ORDER_TRACE_269, "order: takes 269 trace places for enough") \
    VARIANT(ORDER_STAMPS_269, "order: takes 269 stamp places for enough") \
    VARIANT(ORDER_STAMPS_540, "order: asks for 540 stamp places") \
    VARIANT(ORDER_STAMPS_BEFORE_8, "order: writes the stamps, then refuses a trace room that is too short") \
    SANDGUSSET_WORDS_TWIN_LIST(SANDGUSSET_VARIANT_OF_WORDS_TWIN, VARIANT) \
    VARIANT(WORDS_REFUSED_ENDS, "words: a refused word ends the call") \
    VARIANT(WORDS_ANSWERS_9, "words: a refused word refuses the call") \
    VARIANT(WORDS_REFUSED_CLEARED, "words: clears a refused word's places") \
    VARIANT(WORDS_REFUSED_PLAYED, "words: plays a refused word all the same") \
    VARIANT(WORDS_PACKED, "words: a refused word takes up no places") \
    VARIANT(WORDS_CHAINED, "words: takes the last stamp of the word before for a start") \
    VARIANT(WORDS_FIRST_START, "words: takes the first start for every word") \
    VARIANT(WORDS_DUE_FROM_FIRST, "words: tests a word from its own start, counts its due times from the first") \
    VARIANT(WORDS_FIRST_STAMPS, "words: takes the stamps of the first word for every word") \
    VARIANT(WORDS_LAST_SKIPPED, "words: leaves out the last word") \
    VARIANT(WORDS_COUNT_8, "words: keeps 8 bits of the number of words") \
    VARIANT(WORDS_PLACES_16, "words: keeps 16 bits of the place where a word's responses begin") \
    VARIANT(WORDS_MARK_FROM_0, "words: counts the step of a mark from 0") \
    VARIANT(WORDS_MARK_LAST, "words: marks the last step outside its guard") \
    VARIANT(WORDS_MARK_IS_9, "words: marks a refused word with 9") \
    VARIANT(WORDS_MARK_PAST_END, "words: marks an accepted word with the step after its last") \
    VARIANT(WORDS_MARK_OF_8_BITS, "words: keeps 8 bits of a mark") \
    VARIANT(WORDS_MARK_KEPT, "words: doesn't write the mark of an accepted word") \
    VARIANT(WORDS_257, "words: accepts a 257th word") \
    VARIANT(WORDS_255, "words: refuses a 256th word") \
    VARIANT(WORDS_NEEDS_ONE, "words: refuses a call without words") \
    VARIANT(WORDS_NONE_FIRST, "words: without words doesn't test the trace") \
    VARIANT(WORDS_STAMPS_ALONE, "words: without words accepts stamps") \
    VARIANT(WORDS_WRITES_WITHOUT, "words: without words writes a mark") \
    VARIANT(WORDS_STAMPS_LEFT_OVER, "words: accepts more stamps than words times steps") \
    VARIANT(WORDS_BY_STAMPS, "words: plays as many words as there are stamps for") \
    VARIANT(WORDS_ODD_STARTS, "words: accepts starts that are not a multiple of four bytes") \
    VARIANT(WORDS_EIGHT_BEFORE_SEVEN, "words: tests 8 before 7") \
    VARIANT(WORDS_ROOM_OF_ONE, "words: asks for the room of one word") \
    VARIANT(WORDS_ORDER_UNTESTED, "words: doesn't test the room for the order") \
    VARIANT(WORDS_DUE_UNTESTED, "words: doesn't test the room for due times") \
    VARIANT(WORDS_MARKS_UNTESTED, "words: doesn't test the room for marks") \
    VARIANT(WORDS_MARKS_256, "words: asks for 256 marks") \
    VARIANT(WORDS_MARKS_OF_4, "words: asks for four bytes a mark") \
    VARIANT(WORDS_UNNAMED, "words: names no number of words") \
    VARIANT(WORDS_ACCEPTED_NAMED, "words: names the number of accepted words") \
    VARIANT(WORDS_STEPS_NAMED, "words: names the steps too") \
    SANDGUSSET_PLAYER_TWIN_LIST(SANDGUSSET_VARIANT_OF_PLAYER_TWIN, VARIANT) \
    VARIANT(PLAYER_START_SPLIT, "player: starts on a split table") \
    VARIANT(PLAYER_START_LOOKS, "player: refuses to start over a damaged configuration") \
    VARIANT(PLAYER_START_15, "player: refuses to start with 15 where fewer than 10 bytes are lent") \
    VARIANT(PLAYER_START_WITHOUT_ROOM, "player: starts without room for records") \
    VARIANT(PLAYER_START_KEEPS_TIMER, "player: leaves the timer at the start") \
    VARIANT(PLAYER_START_CLEARS, "player: clears the records at the start") \
    VARIANT(PLAYER_13_BEFORE_8, "player: at the start tests 13 before 8") \
    VARIANT(PLAYER_STATE_UNTESTED, "player: accepts a state that is not in the table") \
    VARIANT(PLAYER_STATE_32, "player: accepts any state below 32") \
    VARIANT(PLAYER_UNREACHED_DAMAGED, "player: takes a state that can't be reached for damaged") \
    VARIANT(PLAYER_TIMER_UNTESTED, "player: accepts a timer above 4,096 ticks") \
    VARIANT(PLAYER_TIMER_OVER_4096, "player: accepts a timer of 4,096 ticks and 1/256") \
    VARIANT(PLAYER_TIMER_AT_4096, "player: takes a timer of 4,096 ticks for damaged") \
    VARIANT(PLAYER_INPUTS_513_TAKEN, "player: takes 513 inputs for undamaged") \
    VARIANT(PLAYER_INPUTS_512_DAMAGED, "player: takes 512 inputs for damaged") \
    VARIANT(PLAYER_WAITING_241_TAKEN, "player: takes 241 waiting for undamaged where so many are lent") \
    VARIANT(PLAYER_WAITING_240_DAMAGED, "player: takes 240 waiting for damaged") \
    VARIANT(PLAYER_LENT_UNTESTED, "player: refuses more waiting than lent with 8") \
    VARIANT(PLAYER_STEP_0, "player: accepts step 0") \
    VARIANT(PLAYER_STEP_EQUAL, "player: accepts equal steps") \
    VARIANT(PLAYER_STEPS_UNTESTED, "player: doesn't test whether steps rise") \
    VARIANT(PLAYER_STEP_ABOVE, "player: accepts steps above the inputs so far") \
    VARIANT(PLAYER_STEP_BELOW_INPUTS, "player: takes the step of the last input for damaged") \
    VARIANT(PLAYER_LEFT_UNTESTED, "player: accepts any time left") \
    VARIANT(PLAYER_LEFT_OVER_240, "player: accepts a time left of 240 ticks and 1/256") \
    VARIANT(PLAYER_LEFT_AT_240, "player: takes a time left of 240 ticks for damaged") \
    VARIANT(PLAYER_LETTER_TESTED, "player: takes a record's letter above 255 for damaged") \
    VARIANT(PLAYER_FIRST_TESTED, "player: tests the first waiting record alone") \
    VARIANT(PLAYER_LAST_UNTESTED, "player: doesn't test the last waiting record") \
    VARIANT(PLAYER_BEYOND_TESTED, "player: tests a record beyond the waiting ones") \
    VARIANT(PLAYER_SHORT_CONFIG_8, "player: refuses a move whose configuration has fewer than 10 bytes with 8") \
    VARIANT(PLAYER_CONFIG_9, "player: takes a configuration of 9 bytes for enough") \
    VARIANT(PLAYER_CONFIG_12, "player: asks for a configuration of 12 bytes") \
    VARIANT(PLAYER_CONFIG_EXACT, "player: refuses a configuration of more than 10 bytes") \
    VARIANT(PLAYER_CONFIG_TAIL_CLEARED, "player: overwrites the configuration after its tenth byte") \
    VARIANT(PLAYER_RECORDS_239, "player: takes 239 records for enough") \
    VARIANT(PLAYER_RECORDS_241, "player: asks for 241 records") \
    VARIANT(PLAYER_ROOM_AS_NEEDED, "player: asks for as many records as a move needs") \
    VARIANT(PLAYER_8_BEFORE_15, "player: tests 8 before a damaged configuration") \
    VARIANT(PLAYER_13_FIRST, "player: tests every move for a split table, right after its file") \
    VARIANT(PLAYER_11_BEFORE_10, "player: tests 11 before 10") \
    VARIANT(PLAYER_13_BEFORE_11, "player: tests 13 before 11") \
    VARIANT(PLAYER_14_BEFORE_13, "player: tests 14 before 13") \
    VARIANT(PLAYER_15_BEFORE_14, "player: tests for 241 waiting before 14") \
    VARIANT(PLAYER_TIME_13, "player: refuses time on a split table") \
    VARIANT(PLAYER_OUTPUT_13, "player: refuses an output on a split table") \
    VARIANT(PLAYER_TIME_0_REFUSED, "player: refuses time 0") \
    VARIANT(PLAYER_TIME_0_WHILE_DUE, "player: refuses time 0 while a response is due") \
    VARIANT(PLAYER_TIME_BEFORE_NEXT, "player: refuses time up to the next due response") \
    VARIANT(PLAYER_TIME_ONE_MORE, "player: lets time pass the next due response by 1/256 tick") \
    VARIANT(PLAYER_TIME_PASSES, "player: lets time pass due responses") \
    VARIANT(PLAYER_TIME_CUT, "player: cuts time at the next due response") \
    VARIANT(PLAYER_TIME_BY_FIRST, "player: takes the lowest step for the next due response") \
    VARIANT(PLAYER_TIME_BY_LAST, "player: takes the highest step for the next due response") \
    VARIANT(PLAYER_TIME_TO_TIMER, "player: refuses time beyond the timer's end") \
    VARIANT(PLAYER_TIME_16, "player: keeps 16 bits of time") \
    VARIANT(PLAYER_TIME_OFF_FIRST, "player: takes time off the first waiting response alone") \
    VARIANT(PLAYER_TIME_OFF_ALL, "player: takes time off records that don't wait") \
    VARIANT(PLAYER_TIMER_WRAPS, "player: wraps the timer at 2^32") \
    VARIANT(PLAYER_TIMER_UNSTOPPED, "player: counts the timer on beyond 4,096 ticks") \
    VARIANT(PLAYER_TIMER_STOPS_AT_4095, "player: stops the timer at 4,095 ticks") \
    VARIANT(PLAYER_TIMER_BACK_TO_0, "player: begins the timer again after 4,096 ticks") \
    VARIANT(PLAYER_TIMER_STANDS, "player: leaves the timer where it would pass 4,096 ticks") \
    VARIANT(PLAYER_WHOLE_TICKS, "player: compares the timer in whole ticks") \
    VARIANT(PLAYER_GUARD_PAST_V, "player: takes a guard for open at v and 1/256") \
    VARIANT(PLAYER_ANY_STATE, "player: takes a transition that leaves another state") \
    VARIANT(PLAYER_ANY_LETTER, "player: takes a transition with another letter") \
    VARIANT(PLAYER_INPUT_8_BITS, "player: keeps 8 bits of an input letter") \
    VARIANT(PLAYER_HIGHEST_OPEN, "player: of several open transitions takes the highest") \
    VARIANT(PLAYER_TWO_OPEN_13, "player: gives 13 only where two transitions are open, and in states that can't be reached too") \
    VARIANT(PLAYER_SPLIT_IF_OPEN, "player: gives 13 for an input only where two transitions are open to it") \
    VARIANT(PLAYER_INPUT_SPLIT, "player: takes inputs on a split table") \
    VARIANT(PLAYER_INPUT_WHILE_DUE, "player: takes an input while a response is due") \
    VARIANT(PLAYER_DUE_BY_FIRST, "player: asks the lowest step alone whether it is due") \
    VARIANT(PLAYER_INPUT_513, "player: takes a 513th input") \
    VARIANT(PLAYER_INPUT_511, "player: refuses a 512th input") \
    VARIANT(PLAYER_INPUT_241, "player: lets 241 wait") \
    VARIANT(PLAYER_INPUT_239, "player: refuses to let 240 wait") \
    VARIANT(PLAYER_WAITING_UNTESTED, "player: lets as many wait as are lent") \
    VARIANT(PLAYER_INPUTS_UNCOUNTED, "player: doesn't count inputs") \
    VARIANT(PLAYER_WAITING_UNCOUNTED, "player: doesn't count the new response") \
    VARIANT(PLAYER_TIMER_KEPT, "player: an input doesn't reset the timer") \
    VARIANT(PLAYER_STATE_KEPT, "player: an input doesn't change the state") \
    VARIANT(PLAYER_STEP_BY_WAITING, "player: numbers a response among the waiting ones") \
    VARIANT(PLAYER_LETTER_OF_INPUT, "player: a response has the input's letter") \
    VARIANT(PLAYER_LEFT_IN_TICKS, "player: takes d for parts of a tick") \
    VARIANT(PLAYER_LEFT_LESS_TIMER, "player: counts d from the input before") \
    VARIANT(PLAYER_NEW_FIRST, "player: puts a new response before the others") \
    VARIANT(PLAYER_TRANSITION_UNNAMED, "player: an input names no transition") \
    VARIANT(PLAYER_TRANSITION_FROM_1, "player: counts the transition of an input from 1") \
    VARIANT(PLAYER_STEP_NAMED, "player: an input names its step too") \
    VARIANT(PLAYER_OUTPUT_BEFORE_DUE, "player: issues the next response though it is not due") \
    VARIANT(PLAYER_NOT_MOVED, "player: doesn't move later records down") \
    VARIANT(PLAYER_LAST_INTO_GAP, "player: moves the last record to the freed place") \
    VARIANT(PLAYER_MOVES_ALL, "player: moves records down that don't wait") \
    VARIANT(PLAYER_FREED_CLEARED, "player: clears the freed last record") \
    VARIANT(PLAYER_OUTPUT_KEEPS_WAITING, "player: an output leaves the number of waiting responses") \
    VARIANT(PLAYER_OUTPUT_RESETS_TIMER, "player: an output resets the timer") \
    VARIANT(PLAYER_OUTPUT_UNCOUNTS, "player: an output counts an input less") \
    VARIANT(PLAYER_LETTER_8_BITS, "player: an output names 8 bits of a letter") \
    VARIANT(PLAYER_LETTER_UNNAMED, "player: an output names no letter") \
    VARIANT(PLAYER_WAITING_NAMED, "player: an output names how many wait") \
    VARIANT(PLAYER_DOES_NOTHING, "player: useless: says played to all and changes nothing") \
    VARIANT(PLAYER_SAYS_SIDE, "player: refuses an input to which no transition is open with 9 or 12") \
    VARIANT(WORDS_MARK_SIDE, "words: sets the highest bit of a mark where the step is late") \
    VARIANT(GUARD_SWAPPED, "guard: says early of a late gap and late of an early one") \
    VARIANT(GUARD_ALL_9, "guard: says early of every gap outside") \
    VARIANT(GUARD_ALL_12, "guard: says late of every gap outside") \
    VARIANT(GUARD_U_LATE, "guard: takes a gap of exactly u for late") \
    VARIANT(GUARD_0_LATE, "guard: takes a gap of 0 for late") \
    VARIANT(GUARD_V_EARLY, "guard: takes a gap of v and 1/256 for early") \
    VARIANT(GUARD_RAW, "guard: compares raw stamps: one below the stamp before is early") \
    VARIANT(GUARD_SIGNED, "guard: takes a gap of half a turn and more for a step back: early") \
    VARIANT(GUARD_EARLY_FIRST, "guard: names the first early step, and a late one only if none is early") \
    VARIANT(GUARD_LATE_FIRST, "guard: names the first late step, and an early one only if none is late") \
    VARIANT(GUARD_BY_LAST, "guard: names the first step outside, but says early or late of the last")

#define SANDGUSSET_VARIANT_OF_TRACE(VARIANT, name, what) VARIANT(TRACE_##name, "trace: " what)
#define SANDGUSSET_VARIANT_OF_TABLE(VARIANT, name, what) VARIANT(TABLE_##name, "table: " what)
#define SANDGUSSET_VARIANT_OF_TWIN(VARIANT, name, what) VARIANT(ORDER_##name, what)
#define SANDGUSSET_VARIANT_OF_WORDS_TWIN(VARIANT, name, what) VARIANT(WORDS_##name, what)
#define SANDGUSSET_VARIANT_OF_PLAYER_TWIN(VARIANT, name, what) VARIANT(PLAYER_##name, what)
#define SANDGUSSET_VARIANT_NUMBER(name, what) V_##name,
enum { V_NONE, SANDGUSSET_VARIANT_LIST(SANDGUSSET_VARIANT_NUMBER) V_COUNT };

extern int sandgusset_variant;

#endif
